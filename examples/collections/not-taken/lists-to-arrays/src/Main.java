import java.util.ArrayList;
import java.util.Arrays;
import java.util.List;

/** A list turned into an array of its own type. */
public class Main {
    public static void main(String[] args) {
        List<Integer> list = new ArrayList<Integer>(Arrays.asList(5, 3, 4));
        Integer[] exact = list.toArray(new Integer[list.size()]);
        System.out.println(exact.length + " " + (exact[0] == 5));
        Integer[] array = list.toArray(new Integer[0]);
        Arrays.sort(array);
        System.out.println(Arrays.toString(array));
    }
}
