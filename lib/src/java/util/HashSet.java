package java.util;

import java.io.Serializable;

/**
 * A set by the elements' hashes: the keys of a HashMap, in its order.
 *
 * <p>What stays is what stays of a HashMap, and the map.
 */
public class HashSet<E> extends AbstractSet<E> implements Set<E>, Cloneable, Serializable {
    private final HashMap<E, Object> map;

    /** Makes an empty set with room for twelve elements, in constant time. */
    public HashSet() {
        map = new HashMap<E, Object>();
    }

    /** Makes an empty set with a table of at least {@code capacity} places, in constant time. */
    public HashSet(int capacity) {
        map = new HashMap<E, Object>(capacity);
    }

    /** Makes a set of the elements of a collection, in linear time. */
    public HashSet(Collection<? extends E> others) {
        map = new HashMap<E, Object>(Math.max((int) Math.min(others.size() * 4L / 3 + 1, 1 << 30), 16));
        addAll(others);
    }

    HashSet(HashMap<E, Object> map) {
        this.map = map;
    }

    /** Makes an iterator, in constant time; it goes through the table and the elements. */
    public Iterator<E> iterator() {
        return new HashMap.HashKeyWalk<E, Object>(map);
    }

    /** Returns the number of elements, in constant time. */
    public int size() {
        return map.size();
    }

    /** Reports whether there are no elements, in constant time. */
    public boolean isEmpty() {
        return map.isEmpty();
    }

    /** Reports whether there is an equal element, in constant time where hashes differ. */
    public boolean contains(Object element) {
        return map.containsKey(element);
    }

    /** Adds an element that isn't there, in constant time where hashes differ and the table doesn't grow. */
    public boolean add(E element) {
        if (map.containsKey(element)) {
            return false;
        }
        map.put(element, null);
        return true;
    }

    /** Removes an element, in constant time where hashes differ. */
    public boolean remove(Object element) {
        HashMap.Node<E, Object> node = map.find(element);
        if (node != null) {
            map.unlink(node);
        }
        return node != null;
    }

    /** Removes all elements, in the time of the table, which keeps its length. */
    public void clear() {
        map.clear();
    }

    /** Makes a set of the same elements, in linear time. */
    public Object clone() {
        return new HashSet<E>((HashMap<E, Object>) map.clone());
    }
}
