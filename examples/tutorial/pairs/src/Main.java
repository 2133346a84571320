import java.util.HashSet;
import java.util.Set;

/** A generic pair with equals and hashCode, in a set. */
public class Main {
    static final class Pair<A, B> {
        private final A first;
        private final B second;

        Pair(A first, B second) {
            this.first = first;
            this.second = second;
        }

        public boolean equals(Object other) {
            if (!(other instanceof Pair)) {
                return false;
            }
            Pair<?, ?> pair = (Pair<?, ?>) other;
            return first.equals(pair.first) && second.equals(pair.second);
        }

        public int hashCode() {
            return 31 * first.hashCode() + second.hashCode();
        }

        public String toString() {
            return "(" + first.toString() + ", " + second.toString() + ")";
        }
    }

    public static void main(String[] args) {
        Set<Pair<String, Integer>> pairs = new HashSet<Pair<String, Integer>>();
        String[] names = {"x", "y", "x"};
        for (String name : names) {
            for (int i = 0; i < 3; i++) {
                if (!pairs.add(new Pair<String, Integer>(name, i))) {
                    System.out.println(name + " with " + i + " is there already");
                }
            }
        }
        System.out.println(pairs.size() + " pairs, (y, 2) " + (pairs.contains(new Pair<String, Integer>("y", 2)) ? "among them" : "missing"));
        System.out.println(new Pair<String, Boolean>("p", true).toString());
    }
}
