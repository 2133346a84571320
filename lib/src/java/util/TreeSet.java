package java.util;

import java.io.Serializable;

/**
 * A set in an order: the keys of a TreeMap.
 *
 * <p>What stays is what stays of a TreeMap, and the map.
 */
public class TreeSet<E> extends OrderedSet<E> implements Cloneable, Serializable {
    /** Makes an empty set in the natural order, in constant time. */
    public TreeSet() {
        super(new TreeMap<E, Object>(), true);
    }

    /** Makes an empty set in an order, or in the natural one where it is null, in constant time. */
    public TreeSet(Comparator<? super E> order) {
        super(new TreeMap<E, Object>(order), true);
    }

    /** Makes a set of the elements of a collection in the natural order, in {@code n log n} time. */
    public TreeSet(Collection<? extends E> others) {
        super(new TreeMap<E, Object>(), true);
        addAll(others);
    }

    /** Makes a set of the elements of another one in its order, in {@code n log n} time. */
    public TreeSet(SortedSet<E> others) {
        super(new TreeMap<E, Object>((Comparator<? super E>) others.comparator()), true);
        addAll(others);
    }

    /** Makes a set of the same elements in the same order, in {@code n log n} time. */
    public Object clone() {
        return new TreeSet<E>((SortedSet<E>) this);
    }
}
