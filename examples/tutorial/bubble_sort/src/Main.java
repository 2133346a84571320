import java.util.ArrayList;
import java.util.Arrays;
import java.util.Collections;
import java.util.List;
import java.util.Random;

/** A list sorted by hand, and by the library. */
public class Main {
    static int sort(List<Integer> list) {
        int swaps = 0;
        for (int end = list.size() - 1; end > 0; end--) {
            for (int i = 0; i < end; i++) {
                if (list.get(i) > list.get(i + 1)) {
                    Collections.swap(list, i, i + 1);
                    swaps++;
                }
            }
        }
        return swaps;
    }

    public static void main(String[] args) {
        List<Integer> list = new ArrayList<Integer>(Arrays.asList(5, 2, 9, 1, 7, 3, 8, 6, 4, 0));
        List<Integer> other = new ArrayList<Integer>(list);
        int swaps = sort(list);
        Collections.sort(other);
        System.out.println(list.toString() + " after " + swaps + " swaps, the same: " + list.equals(other));
        Collections.shuffle(list, new Random(1));
        System.out.println("shuffled " + list.toString());
        Collections.sort(list, Collections.reverseOrder());
        System.out.println("down " + list.toString() + ", 7 at " + Collections.binarySearch(list, 7, Collections.<Integer>reverseOrder()));
    }
}
