package java.util;

/** A set in an order that finds neighbours. The costs are those of the classes that implement it. */
public interface NavigableSet<E> extends SortedSet<E> {
    /** Returns the greatest element below the given one, or null. */
    E lower(E element);

    /** Returns the greatest element at or below the given one, or null. */
    E floor(E element);

    /** Returns the least element at or above the given one, or null. */
    E ceiling(E element);

    /** Returns the least element above the given one, or null. */
    E higher(E element);

    /** Removes and returns the least element, or returns null. */
    E pollFirst();

    /** Removes and returns the greatest element, or returns null. */
    E pollLast();

    /** Makes a view in the opposite order. */
    NavigableSet<E> descendingSet();

    /** Makes an iterator from the greatest element to the least. */
    Iterator<E> descendingIterator();

    /** Makes a view of the elements between two, each with or without the bound itself. */
    NavigableSet<E> subSet(E from, boolean withFrom, E to, boolean withTo);

    /** Makes a view of the elements before a bound, with or without the bound itself. */
    NavigableSet<E> headSet(E to, boolean withTo);

    /** Makes a view of the elements from a bound on, with or without the bound itself. */
    NavigableSet<E> tailSet(E from, boolean withFrom);
}
