import java.util.ArrayList;
import java.util.Arrays;
import java.util.Iterator;
import java.util.List;

/** Merges sorted lists of anything that can be compared, and sorts by merging. */
public class Main {
    static <T extends Comparable<? super T>> List<T> merge(List<T> one, List<T> other) {
        List<T> merged = new ArrayList<T>(one.size() + other.size());
        int i = 0;
        int k = 0;
        while (i < one.size() && k < other.size()) {
            if (one.get(i).compareTo(other.get(k)) <= 0) {
                merged.add(one.get(i++));
            } else {
                merged.add(other.get(k++));
            }
        }
        merged.addAll(one.subList(i, one.size()));
        merged.addAll(other.subList(k, other.size()));
        return merged;
    }

    static <T extends Comparable<? super T>> List<T> sorted(List<T> list) {
        if (list.size() < 2) {
            return list;
        }
        int middle = list.size() / 2;
        return merge(sorted(list.subList(0, middle)), sorted(list.subList(middle, list.size())));
    }

    static <T extends Comparable<? super T>> boolean isSorted(Iterable<T> elements) {
        Iterator<T> each = elements.iterator();
        if (!each.hasNext()) {
            return true;
        }
        for (T before = each.next(); each.hasNext();) {
            T element = each.next();
            if (before.compareTo(element) > 0) {
                return false;
            }
            before = element;
        }
        return true;
    }

    public static void main(String[] args) {
        List<Integer> odd = Arrays.asList(1, 3, 5, 7, 9);
        List<Integer> squares = Arrays.asList(1, 4, 9, 16);
        System.out.println(merge(odd, squares).toString());
        System.out.println(merge(squares, odd).equals(merge(odd, squares)) ? "the same from both sides" : "not the same");
        System.out.println(merge(new ArrayList<Integer>(), odd).toString());
        List<Long> longs = new ArrayList<Long>();
        long value = 1;
        for (int i = 0; i < 200; i++) {
            value = value * 6364136223846793005L + 1442695040888963407L;
            longs.add(value >> 40);
        }
        List<Long> inOrder = sorted(longs);
        System.out.println(isSorted(longs) + " " + isSorted(inOrder) + " " + inOrder.size());
        System.out.println(inOrder.subList(0, 5).toString());
        System.out.println(sorted(Arrays.asList('m', 'e', 'r', 'g', 'e')).toString());
    }
}
