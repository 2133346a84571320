import java.util.Arrays;
import java.util.List;

/** Methods with any number of arguments, boxes and what is unboxed. */
public class Main {
    static int sum(int... numbers) {
        int sum = 0;
        for (int number : numbers) {
            sum += number;
        }
        return sum;
    }

    static <T> T last(T... all) {
        return all[all.length - 1];
    }

    static <T extends Comparable<T>> T greatest(List<T> all) {
        T best = all.get(0);
        for (T each : all) {
            if (each.compareTo(best) > 0) {
                best = each;
            }
        }
        return best;
    }

    public static void main(String[] args) {
        System.out.println(sum() + " " + sum(1) + " " + sum(1, 2, 3));
        System.out.println(last("a", "b", "c") + " " + last(1, 2, 3).intValue());
        System.out.println(greatest(Arrays.asList(3, 9, 4)).intValue());
        Integer small = 100;
        Integer other = 100;
        Integer large = 1000;
        Integer larger = 1000;
        System.out.println((small == other) + " " + (large == larger) + " " + large.equals(larger));
        Long box = 7L;
        long twice = 2 * box;
        Character letter = 'x';
        System.out.println(twice + " " + (char) (letter + 1) + " " + (box.hashCode() + letter.hashCode()));
        List<Integer> list = Arrays.asList(3, 1, 2);
        list.set(0, list.get(1) + list.get(2));
        System.out.println(list.toString());
    }
}
