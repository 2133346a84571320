import java.util.ArrayList;
import java.util.Arrays;
import java.util.LinkedList;
import java.util.List;

/** All orders of a list. */
public class Main {
    static <T> List<List<T>> orders(List<T> all) {
        List<List<T>> found = new ArrayList<List<T>>();
        if (all.isEmpty()) {
            found.add(new LinkedList<T>());
            return found;
        }
        for (int i = 0; i < all.size(); i++) {
            List<T> rest = new ArrayList<T>(all);
            T first = rest.remove(i);
            for (List<T> order : orders(rest)) {
                order.add(0, first);
                found.add(order);
            }
        }
        return found;
    }

    public static void main(String[] args) {
        for (List<String> order : orders(Arrays.asList("a", "b", "c"))) {
            System.out.println(order.toString());
        }
        System.out.println(orders(Arrays.asList(1, 2, 3, 4, 5)).size() + " orders of five");
    }
}
