package java.util;

/** A queue of two ends, which serves as a stack too. The costs are those of the classes that implement it. */
public interface Deque<E> extends Queue<E> {
    /** Adds an element at the head. */
    void addFirst(E element);

    /** Adds an element at the tail. */
    void addLast(E element);

    /** Adds an element at the head, and reports whether there was room. */
    boolean offerFirst(E element);

    /** Adds an element at the tail, and reports whether there was room. */
    boolean offerLast(E element);

    /** Removes and returns the first element, or throws NoSuchElementException. */
    E removeFirst();

    /** Removes and returns the last element, or throws NoSuchElementException. */
    E removeLast();

    /** Removes and returns the first element, or returns null. */
    E pollFirst();

    /** Removes and returns the last element, or returns null. */
    E pollLast();

    /** Returns the first element, or throws NoSuchElementException. */
    E getFirst();

    /** Returns the last element, or throws NoSuchElementException. */
    E getLast();

    /** Returns the first element, or null. */
    E peekFirst();

    /** Returns the last element, or null. */
    E peekLast();

    /** Removes the first element that equals the given one. */
    boolean removeFirstOccurrence(Object element);

    /** Removes the last element that equals the given one. */
    boolean removeLastOccurrence(Object element);

    /** Adds an element at the head, as on a stack. */
    void push(E element);

    /** Removes and returns the first element, as from a stack. */
    E pop();

    /** Makes an iterator from the last element to the first. */
    Iterator<E> descendingIterator();
}
