import java.util.ArrayList;
import java.util.Arrays;
import java.util.Collection;
import java.util.HashMap;
import java.util.List;
import java.util.Map;

/** Methods on lists of unknown types. */
public class Main {
    static long sum(Collection<? extends Number> numbers) {
        long sum = 0;
        for (Number number : numbers) {
            sum += number.longValue();
        }
        return sum;
    }

    static void fill(List<? super Integer> list, int count) {
        for (int i = 0; i < count; i++) {
            list.add(i * i);
        }
    }

    static <T> void copy(List<? extends T> from, List<? super T> to) {
        for (T each : from) {
            to.add(each);
        }
    }

    static <T extends Comparable<? super T>> T most(Iterable<? extends T> items) {
        T best = null;
        for (T item : items) {
            if (best == null || item.compareTo(best) > 0) {
                best = item;
            }
        }
        return best;
    }

    static int size(Map<?, ? extends Collection<?>> map) {
        int size = 0;
        for (Collection<?> each : map.values()) {
            size += each.size();
        }
        return size;
    }

    public static void main(String[] args) {
        List<Integer> ints = new ArrayList<Integer>();
        fill(ints, 5);
        List<Number> numbers = new ArrayList<Number>();
        fill(numbers, 2);
        copy(ints, numbers);
        numbers.add(1L << 40);
        System.out.println(ints + " " + numbers + " " + sum(ints) + " " + sum(numbers));
        System.out.println(most(ints) + " " + most(Arrays.asList("kiwi", "lemon", "date")));
        Map<String, List<Integer>> groups = new HashMap<String, List<Integer>>();
        groups.put("ints", ints);
        groups.put("none", new ArrayList<Integer>());
        System.out.println(size(groups));
    }
}
