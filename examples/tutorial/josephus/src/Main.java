import java.util.Iterator;
import java.util.LinkedList;
import java.util.List;

/** Who is left of a circle of which each third one goes. */
public class Main {
    public static void main(String[] args) {
        List<Integer> circle = new LinkedList<Integer>();
        for (int i = 1; i <= 41; i++) {
            circle.add(i);
        }
        StringBuilder gone = new StringBuilder();
        Iterator<Integer> next = circle.iterator();
        while (circle.size() > 2) {
            int who = 0;
            for (int i = 0; i < 3; i++) {
                if (!next.hasNext()) {
                    next = circle.iterator();
                }
                who = next.next();
            }
            next.remove();
            gone.append(who).append(' ');
        }
        System.out.println("gone: " + gone.toString());
        System.out.println("left: " + circle.toString());
    }
}
