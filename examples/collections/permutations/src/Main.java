import java.util.ArrayList;
import java.util.Collections;
import java.util.HashSet;
import java.util.List;
import java.util.Set;

/** Permutations and subsets as lists of lists. */
public class Main {
    static <T> List<List<T>> permutations(List<T> elements) {
        List<List<T>> all = new ArrayList<List<T>>();
        if (elements.isEmpty()) {
            all.add(new ArrayList<T>());
            return all;
        }
        T first = elements.get(0);
        for (List<T> rest : permutations(elements.subList(1, elements.size()))) {
            for (int place = 0; place <= rest.size(); place++) {
                List<T> permutation = new ArrayList<T>(rest);
                permutation.add(place, first);
                all.add(permutation);
            }
        }
        return all;
    }

    static <T> List<List<T>> subsets(List<T> elements) {
        List<List<T>> all = new ArrayList<List<T>>();
        for (int bits = 0; bits < 1 << elements.size(); bits++) {
            List<T> subset = new ArrayList<T>();
            for (int i = 0; i < elements.size(); i++) {
                if ((bits >> i & 1) != 0) {
                    subset.add(elements.get(i));
                }
            }
            all.add(subset);
        }
        return all;
    }

    static List<Integer> numbers(int count) {
        List<Integer> numbers = new ArrayList<Integer>();
        for (int i = 1; i <= count; i++) {
            numbers.add(i);
        }
        return numbers;
    }

    /** Whether no number is at its own place. */
    static boolean isMixed(List<Integer> permutation) {
        for (int i = 0; i < permutation.size(); i++) {
            if (permutation.get(i) == i + 1) {
                return false;
            }
        }
        return true;
    }

    public static void main(String[] args) {
        for (List<Integer> permutation : permutations(numbers(3))) {
            System.out.println(permutation.toString());
        }
        for (int count = 0; count <= 6; count++) {
            List<List<Integer>> all = permutations(numbers(count));
            Set<List<Integer>> different = new HashSet<List<Integer>>(all);
            int mixed = 0;
            for (List<Integer> permutation : all) {
                if (isMixed(permutation)) {
                    mixed++;
                }
            }
            System.out.println(count + ": " + all.size() + " permutations, " + different.size() + " different, " + mixed + " mixed");
        }
        List<String> words = new ArrayList<String>();
        Collections.addAll(words, "salt", "oil", "rice");
        System.out.println(subsets(words).toString());
        System.out.println(subsets(numbers(8)).size() + " subsets of 8");
    }
}
