import java.util.Iterator;
import java.util.NoSuchElementException;

/** A class of one's own that a for takes. */
public class Main {
    static class Range implements Iterable<Integer> {
        private final int start;
        private final int end;

        Range(int start, int end) {
            this.start = start;
            this.end = end;
        }

        public Iterator<Integer> iterator() {
            return new Iterator<Integer>() {
                private int next = start;

                public boolean hasNext() {
                    return next < end;
                }

                public Integer next() {
                    if (next >= end) {
                        throw new NoSuchElementException();
                    }
                    return next++;
                }

                public void remove() {
                    throw new UnsupportedOperationException();
                }
            };
        }
    }

    public static void main(String[] args) {
        int sum = 0;
        for (int i : new Range(3, 8)) {
            for (int j : new Range(i, i + 2)) {
                sum += i * j;
            }
        }
        System.out.println("sum " + sum);
        Iterator<Integer> none = new Range(1, 1).iterator();
        try {
            none.next();
        } catch (NoSuchElementException e) {
            System.out.println("nothing left");
        }
    }
}
