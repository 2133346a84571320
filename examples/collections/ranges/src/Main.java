import java.util.ArrayList;
import java.util.Iterator;
import java.util.List;
import java.util.NoSuchElementException;

/** Iterators of one's own: a range of numbers, what of it passes a test, and pairs of two. */
public class Main {
    static class Range implements Iterable<Integer> {
        private final int start;
        private final int end;
        private final int step;

        Range(int start, int end, int step) {
            this.start = start;
            this.end = end;
            this.step = step;
        }

        public Iterator<Integer> iterator() {
            return new Iterator<Integer>() {
                private int next = start;

                public boolean hasNext() {
                    return next < end;
                }

                public Integer next() {
                    if (!hasNext()) {
                        throw new NoSuchElementException("after " + end);
                    }
                    int result = next;
                    next += step;
                    return result;
                }

                public void remove() {
                    throw new UnsupportedOperationException();
                }
            };
        }
    }

    interface Test<T> {
        boolean passes(T element);
    }

    static <T> List<T> filtered(Iterable<? extends T> elements, Test<? super T> test) {
        List<T> passed = new ArrayList<T>();
        for (T element : elements) {
            if (test.passes(element)) {
                passed.add(element);
            }
        }
        return passed;
    }

    static class IsDivisible implements Test<Integer> {
        private final int divisor;

        IsDivisible(int divisor) {
            this.divisor = divisor;
        }

        public boolean passes(Integer number) {
            return number % divisor == 0;
        }
    }

    public static void main(String[] args) {
        int sum = 0;
        for (int number : new Range(1, 101, 1)) {
            sum += number;
        }
        System.out.println("1 to 100: " + sum);
        System.out.println("by threes: " + filtered(new Range(0, 50, 5), new IsDivisible(3)).toString());
        int triples = 0;
        for (int a : new Range(1, 40, 1)) {
            for (int b : new Range(a, 40, 1)) {
                for (int c : new Range(b, 40, 1)) {
                    if (a * a + b * b == c * c) {
                        triples++;
                    }
                }
            }
        }
        System.out.println(triples + " triples");
        Iterator<Integer> none = new Range(3, 3, 1).iterator();
        try {
            none.next();
        } catch (NoSuchElementException e) {
            System.out.println("none " + e.getMessage());
        }
        try {
            none.remove();
        } catch (UnsupportedOperationException e) {
            System.out.println("nothing is removed");
        }
    }
}
