import java.util.Arrays;
import java.util.HashSet;
import java.util.LinkedHashSet;
import java.util.Set;
import java.util.TreeSet;

/** Union, intersection, difference and subsets, on sets of numbers and of words. */
public class Main {
    static <T> Set<T> union(Set<T> one, Set<T> other) {
        Set<T> all = new TreeSet<T>(one);
        all.addAll(other);
        return all;
    }

    static <T> Set<T> intersection(Set<T> one, Set<T> other) {
        Set<T> common = new TreeSet<T>(one);
        common.retainAll(other);
        return common;
    }

    static <T> Set<T> difference(Set<T> one, Set<T> other) {
        Set<T> rest = new TreeSet<T>(one);
        rest.removeAll(other);
        return rest;
    }

    static <T> void compare(Set<T> one, Set<T> other) {
        System.out.println("A = " + one.toString() + ", B = " + other.toString());
        System.out.println("  A or B: " + union(one, other).toString());
        System.out.println("  A and B: " + intersection(one, other).toString());
        System.out.println("  A without B: " + difference(one, other).toString());
        Set<T> either = difference(union(one, other), intersection(one, other));
        System.out.println("  A or B, not both: " + either.toString());
        System.out.println("  B has all of A: " + other.containsAll(one));
        System.out.println("  laws hold: " + either.equals(union(difference(one, other), difference(other, one))));
    }

    static Set<Integer> multiples(int factor, int limit) {
        Set<Integer> multiples = new TreeSet<Integer>();
        for (int number = factor; number <= limit; number += factor) {
            multiples.add(number);
        }
        return multiples;
    }

    public static void main(String[] args) {
        compare(multiples(2, 20), multiples(3, 20));
        compare(multiples(6, 30), multiples(3, 30));
        compare(new LinkedHashSet<String>(Arrays.asList("to", "be", "or", "not", "to", "be")), new HashSet<String>(Arrays.asList("be", "not", "afraid")));
        Set<Integer> empty = new TreeSet<Integer>();
        compare(empty, multiples(5, 10));
    }
}
