package java.util;

/** What queues have in common: a class adds {@code offer}, {@code poll}, {@code peek}, {@code size} and {@code iterator}. */
public abstract class AbstractQueue<E> extends AbstractCollection<E> implements Queue<E> {
    /** Makes a queue, in constant time. */
    protected AbstractQueue() {
    }

    /** Calls {@code offer}, and throws IllegalStateException where there is no room. */
    public boolean add(E element) {
        if (!offer(element)) {
            throw new IllegalStateException("Queue full");
        }
        return true;
    }

    /** Calls {@code poll}, and throws NoSuchElementException where there is no element. */
    public E remove() {
        E head = poll();
        if (head == null) {
            throw new NoSuchElementException();
        }
        return head;
    }

    /** Calls {@code peek}, and throws NoSuchElementException where there is no element. */
    public E element() {
        E head = peek();
        if (head == null) {
            throw new NoSuchElementException();
        }
        return head;
    }

    /** Calls {@code poll} for each element. */
    public void clear() {
        while (poll() != null) {
            // (the element is gone)
        }
    }

    /** Adds the elements one by one, and throws IllegalArgumentException where the other is this queue. */
    public boolean addAll(Collection<? extends E> others) {
        if (others == this) {
            throw new IllegalArgumentException();
        }
        return super.addAll(others);
    }
}
