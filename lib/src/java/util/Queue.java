package java.util;

/** Elements that wait, of which the head leaves first. The costs are those of the classes that implement it. */
public interface Queue<E> extends Collection<E> {
    /** Adds an element, or throws IllegalStateException where there is no room. */
    boolean add(E element);

    /** Adds an element, and reports whether there was room. */
    boolean offer(E element);

    /** Removes and returns the head, or throws NoSuchElementException where there is none. */
    E remove();

    /** Removes and returns the head, or returns null. */
    E poll();

    /** Returns the head, or throws NoSuchElementException where there is none. */
    E element();

    /** Returns the head, or null. */
    E peek();
}
