import java.util.Arrays;
import java.util.Set;
import java.util.TreeSet;

/** Union, intersection and difference of sets. */
public class Main {
    public static void main(String[] args) {
        Set<Integer> even = new TreeSet<Integer>();
        Set<Integer> squares = new TreeSet<Integer>();
        for (int i = 1; i <= 10; i++) {
            even.add(2 * i);
            squares.add(i * i);
        }
        Set<Integer> union = new TreeSet<Integer>(even);
        union.addAll(squares);
        Set<Integer> both = new TreeSet<Integer>(even);
        both.retainAll(squares);
        Set<Integer> difference = new TreeSet<Integer>(even);
        difference.removeAll(squares);
        System.out.println("union " + union.toString());
        System.out.println("both " + both.toString());
        System.out.println("even, no squares " + difference.toString());
        System.out.println("contains all: " + union.containsAll(both) + ", equal: " + both.equals(new TreeSet<Integer>(Arrays.asList(16, 4))));
    }
}
