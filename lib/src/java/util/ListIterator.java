package java.util;

/** Goes through a list in both directions, and may change it. */
public interface ListIterator<E> extends Iterator<E> {
    /** Reports whether there is a next element. */
    boolean hasNext();

    /** Goes on and returns the element, or throws NoSuchElementException where there is none. */
    E next();

    /** Reports whether there is a previous element. */
    boolean hasPrevious();

    /** Goes back and returns the element, or throws NoSuchElementException where there is none. */
    E previous();

    /** Returns the index of the element that {@code next} would return. */
    int nextIndex();

    /** Returns the index of the element that {@code previous} would return. */
    int previousIndex();

    /** Removes the element that was returned last. */
    void remove();

    /** Replaces the element that was returned last. */
    void set(E element);

    /** Inserts an element before the one that {@code next} would return. */
    void add(E element);
}
