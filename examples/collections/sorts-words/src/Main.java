import java.util.ArrayList;
import java.util.Arrays;
import java.util.List;

/** The greatest of anything that can be compared, of texts too. */
public class Main {
    static <T extends Comparable<? super T>> T greatest(List<? extends T> list) {
        T greatest = list.get(0);
        for (T element : list) {
            if (element.compareTo(greatest) > 0) {
                greatest = element;
            }
        }
        return greatest;
    }

    public static void main(String[] args) {
        List<Integer> numbers = Arrays.asList(3, 1, 2);
        System.out.println(greatest(numbers).toString());
        List<String> words = new ArrayList<String>(Arrays.asList("pear", "fig", "apple"));
        System.out.println(greatest(words));
    }
}
