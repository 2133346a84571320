import java.util.ArrayList;
import java.util.Arrays;
import java.util.ConcurrentModificationException;
import java.util.Iterator;
import java.util.LinkedList;
import java.util.List;
import java.util.ListIterator;

/** Iterators that change their lists. */
public class Main {
    public static void main(String[] args) {
        List<String> list = new LinkedList<String>(Arrays.asList("a", "b", "c", "d", "e"));
        ListIterator<String> cursor = list.listIterator();
        while (cursor.hasNext()) {
            int index = cursor.nextIndex();
            String item = cursor.next();
            if (index % 2 == 0) {
                cursor.set(item.toUpperCase());
            } else if (item.equals("b")) {
                cursor.add("b2");
            } else {
                cursor.remove();
            }
        }
        System.out.println(list);
        StringBuilder back = new StringBuilder();
        while (cursor.hasPrevious()) {
            back.append(cursor.previous());
        }
        System.out.println(back + " " + cursor.nextIndex());
        List<Integer> numbers = new ArrayList<Integer>();
        for (int i = 0; i < 10; i++) {
            numbers.add(i);
        }
        for (Iterator<Integer> each = numbers.iterator(); each.hasNext();) {
            if (each.next() % 3 != 0) {
                each.remove();
            }
        }
        System.out.println(numbers);
        try {
            for (Integer number : numbers) {
                if (number == 3) {
                    numbers.remove(number);
                }
            }
        } catch (ConcurrentModificationException e) {
            System.out.println("changed on the way: " + numbers);
        }
        System.out.println(numbers.subList(1, 3) + " " + numbers.indexOf(9) + " " + numbers.contains(3));
    }
}
