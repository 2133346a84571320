package java.util;

/**
 * A hash set whose elements come in the order in which they were added first.
 *
 * <p>What stays is what stays of a HashSet.
 */
public class LinkedHashSet<E> extends HashSet<E> {
    /** Makes an empty set with room for twelve elements, in constant time. */
    public LinkedHashSet() {
        super(new LinkedHashMap<E, Object>(16));
    }

    /** Makes an empty set with a table of at least {@code capacity} places, in constant time. */
    public LinkedHashSet(int capacity) {
        super(new LinkedHashMap<E, Object>(capacity));
    }

    /** Makes a set of the elements of a collection, in linear time. */
    public LinkedHashSet(Collection<? extends E> others) {
        super(new LinkedHashMap<E, Object>(Math.max(2 * others.size(), 11)));
        addAll(others);
    }

    /** Makes a set of the same elements in the same order, in linear time. */
    public Object clone() {
        return new LinkedHashSet<E>(this);
    }
}
