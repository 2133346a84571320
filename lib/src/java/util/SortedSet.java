package java.util;

/** A set in an order. The costs are those of the classes that implement it. */
public interface SortedSet<E> extends Set<E> {
    /** Returns the order, or null where it is the natural one. */
    Comparator<? super E> comparator();

    /** Makes a view of the elements from {@code from} to before {@code to}. */
    SortedSet<E> subSet(E from, E to);

    /** Makes a view of the elements before {@code to}. */
    SortedSet<E> headSet(E to);

    /** Makes a view of the elements from {@code from} on. */
    SortedSet<E> tailSet(E from);

    /** Returns the least element, or throws NoSuchElementException. */
    E first();

    /** Returns the greatest element, or throws NoSuchElementException. */
    E last();
}
