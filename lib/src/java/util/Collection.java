package java.util;

/** Elements, in whatever arrangement. The costs are those of the classes that implement it. */
public interface Collection<E> extends Iterable<E> {
    /** Returns how many elements there are. */
    int size();

    /** Reports whether there are none. */
    boolean isEmpty();

    /** Reports whether an element equals the given one. */
    boolean contains(Object element);

    /** Makes an iterator over the elements. */
    Iterator<E> iterator();

    /** Returns a new array of the elements. */
    Object[] toArray();

    /**
     * Puts the elements into an array that has room for them, and null behind the last one, and returns it. A class of this
     * library throws UnsupportedOperationException where there is no room, since it can't make an array of the same type.
     */
    <T> T[] toArray(T[] array);

    /** Adds an element, and reports whether the collection changed. */
    boolean add(E element);

    /** Removes one element that equals the given one, and reports whether there was one. */
    boolean remove(Object element);

    /** Reports whether all elements of the other collection are contained. */
    boolean containsAll(Collection<?> others);

    /** Adds all elements of the other collection, and reports whether this one changed. */
    boolean addAll(Collection<? extends E> others);

    /** Removes all elements that the other collection contains, and reports whether this one changed. */
    boolean removeAll(Collection<?> others);

    /** Removes all elements that the other collection doesn't contain, and reports whether this one changed. */
    boolean retainAll(Collection<?> others);

    /** Removes all elements. */
    void clear();

    /** Reports whether the other object is an equal collection. */
    boolean equals(Object other);

    /** Returns a hash that equal collections share. */
    int hashCode();
}
