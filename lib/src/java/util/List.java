package java.util;

/** Elements in an order, each at an index from 0 on. The costs are those of the classes that implement it. */
public interface List<E> extends Collection<E> {
    /** Adds an element at the end. */
    boolean add(E element);

    /** Inserts an element at an index from 0 to the size. */
    void add(int index, E element);

    /** Adds all elements of a collection at the end. */
    boolean addAll(Collection<? extends E> others);

    /** Inserts all elements of a collection at an index. */
    boolean addAll(int index, Collection<? extends E> others);

    /** Returns the element at an index. */
    E get(int index);

    /** Replaces the element at an index, and returns the old one. */
    E set(int index, E element);

    /** Removes the element at an index, and returns it. */
    E remove(int index);

    /** Removes the first element that equals the given one. */
    boolean remove(Object element);

    /** Returns the first index of an equal element, or -1. */
    int indexOf(Object element);

    /** Returns the last index of an equal element, or -1. */
    int lastIndexOf(Object element);

    /** Makes an iterator over the elements in their order. */
    ListIterator<E> listIterator();

    /** Makes an iterator that begins before an index. */
    ListIterator<E> listIterator(int index);

    /** Makes a view of the elements from {@code start} to before {@code end}. */
    List<E> subList(int start, int end);

    /** Sorts the list by an order, or by the natural one where it is null; equal elements keep their order. */
    void sort(Comparator<? super E> order);

    /** Reports whether the other object is a list of equal elements in the same order. */
    boolean equals(Object other);

    /** Returns the hash of a list: from 1 on, 31 times the last value and the element's hash. */
    int hashCode();
}
