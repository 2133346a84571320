import java.util.ArrayDeque;
import java.util.ArrayList;
import java.util.Deque;
import java.util.List;

/** People stand in a circle, and each k-th of them leaves: in which order, and who is left? */
public class Main {
    static List<Integer> order(int people, int step) {
        Deque<Integer> circle = new ArrayDeque<Integer>();
        for (int person = 1; person <= people; person++) {
            circle.addLast(person);
        }
        List<Integer> order = new ArrayList<Integer>();
        while (!circle.isEmpty()) {
            for (int i = 1; i < step; i++) {
                circle.addLast(circle.removeFirst());
            }
            order.add(circle.removeFirst());
        }
        return order;
    }

    /** The last one by the rule of one step fewer. */
    static int last(int people, int step) {
        int last = 0;
        for (int count = 2; count <= people; count++) {
            last = (last + step) % count;
        }
        return last + 1;
    }

    public static void main(String[] args) {
        System.out.println("7 people, step 3: " + order(7, 3).toString());
        System.out.println("10 people, step 2: " + order(10, 2).toString());
        System.out.println("5 people, step 1: " + order(5, 1).toString());
        boolean isRight = true;
        for (int people = 1; people <= 60; people++) {
            for (int step = 1; step <= 6; step++) {
                List<Integer> order = order(people, step);
                isRight &= order.get(people - 1) == last(people, step);
            }
        }
        System.out.println(isRight ? "the rule holds" : "the rule fails");
        System.out.println("41 people, step 3: the last two are " + order(41, 3).subList(39, 41).toString());
    }
}
