import java.util.Iterator;
import java.util.NoSuchElementException;

/** A list of one's own with an inner iterator. */
public class Main<T> implements Iterable<T> {
    private static class Node<T> {
        final T item;
        Node<T> next;

        Node(T item) {
            this.item = item;
        }
    }

    private Node<T> first;
    private Node<T> last;
    private int size;

    Main<T> add(T item) {
        Node<T> node = new Node<T>(item);
        if (first == null) {
            first = node;
        } else {
            last.next = node;
        }
        last = node;
        size++;
        return this;
    }

    private class Walk implements Iterator<T> {
        private Node<T> next = first;

        public boolean hasNext() {
            return next != null;
        }

        public T next() {
            if (next == null) {
                throw new NoSuchElementException("after " + size);
            }
            T item = next.item;
            next = next.next;
            return item;
        }

        public void remove() {
            throw new UnsupportedOperationException();
        }
    }

    public Iterator<T> iterator() {
        return new Walk();
    }

    public static void main(String[] args) {
        Main<String> words = new Main<String>().add("to").add("be").add("or").add("not");
        for (String word : words) {
            System.out.print(word + " ");
        }
        System.out.println();
        Iterator<String> walk = words.iterator();
        try {
            while (true) {
                walk.next();
            }
        } catch (NoSuchElementException e) {
            System.out.println(e.getMessage());
        }
    }
}
