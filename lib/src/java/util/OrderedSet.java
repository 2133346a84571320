package java.util;

/** The keys of a map in an order, as a set: a view of them, or a set of its own, which may grow. */
class OrderedSet<E> extends AbstractSet<E> implements NavigableSet<E> {
    private final OrderedMap<E, Object> map;
    private final boolean mayGrow;

    OrderedSet(OrderedMap<E, Object> map, boolean mayGrow) {
        this.map = map;
        this.mayGrow = mayGrow;
    }

    private OrderedSet<E> part(NavigableMap<E, Object> keys) {
        return new OrderedSet<E>((OrderedMap<E, Object>) keys, mayGrow);
    }

    /** Removes the element of an entry, and returns it, or returns null where there is no entry. */
    private E taken(Map.Entry<E, Object> entry) {
        if (entry == null) {
            return null;
        }
        E element = entry.getKey();
        map.remove(element);
        return element;
    }

    /** Makes an iterator, in logarithmic time; each element takes that too. */
    public Iterator<E> iterator() {
        return new AbstractMap.KeyWalk<E, Object>(map.entries());
    }

    /** Makes an iterator from the greatest element to the least, as above. */
    public Iterator<E> descendingIterator() {
        return new AbstractMap.KeyWalk<E, Object>(new MapDown<E, Object>(map).entries());
    }

    /** Returns the number of elements: in constant time of a whole set, else they are counted. */
    public int size() {
        return map.size();
    }

    /** Reports whether there are no elements, in logarithmic time. */
    public boolean isEmpty() {
        return map.isEmpty();
    }

    /** Reports whether there is an equal element, in logarithmic time. */
    public boolean contains(Object element) {
        return map.containsKey(element);
    }

    /** Adds an element that isn't there, in logarithmic time; a view of keys throws UnsupportedOperationException. */
    public boolean add(E element) {
        if (!mayGrow) {
            throw new UnsupportedOperationException();
        }
        if (!map.isEmpty() && map.containsKey(element)) {
            return false;
        }
        map.put(element, null);
        return true;
    }

    /** Removes an element, in logarithmic time. */
    public boolean remove(Object element) {
        boolean isThere = map.containsKey(element);
        if (isThere) {
            map.remove(element);
        }
        return isThere;
    }

    /** Removes all elements, one by one. */
    public void clear() {
        map.clear();
    }

    /** Returns the order, or null where it is the natural one, in constant time. */
    public Comparator<? super E> comparator() {
        return map.comparator();
    }

    /** Returns the least element, in logarithmic time. */
    public E first() {
        return map.firstKey();
    }

    /** Returns the greatest element, in logarithmic time. */
    public E last() {
        return map.lastKey();
    }

    /** Returns the greatest element below another, or null, in logarithmic time. */
    public E lower(E element) {
        return map.lowerKey(element);
    }

    /** Returns the greatest element at or below another, or null, in logarithmic time. */
    public E floor(E element) {
        return map.floorKey(element);
    }

    /** Returns the least element at or above another, or null, in logarithmic time. */
    public E ceiling(E element) {
        return map.ceilingKey(element);
    }

    /** Returns the least element above another, or null, in logarithmic time. */
    public E higher(E element) {
        return map.higherKey(element);
    }

    /** Removes the least element, or returns null, in logarithmic time. */
    public E pollFirst() {
        return taken(map.least());
    }

    /** Removes the greatest element, or returns null, in logarithmic time. */
    public E pollLast() {
        return taken(map.greatest());
    }

    /** Makes a view in the opposite order, in constant time. */
    public NavigableSet<E> descendingSet() {
        return part(map.descendingMap());
    }

    /** Makes a view of the elements between two, in constant time. */
    public NavigableSet<E> subSet(E from, boolean withFrom, E to, boolean withTo) {
        return part(map.subMap(from, withFrom, to, withTo));
    }

    /** Makes a view of the elements before a bound, in constant time. */
    public NavigableSet<E> headSet(E to, boolean withTo) {
        return part(map.headMap(to, withTo));
    }

    /** Makes a view of the elements from a bound on, in constant time. */
    public NavigableSet<E> tailSet(E from, boolean withFrom) {
        return part(map.tailMap(from, withFrom));
    }

    /** Makes a view of the elements from one to before another, in constant time. */
    public SortedSet<E> subSet(E from, E to) {
        return subSet(from, true, to, false);
    }

    /** Makes a view of the elements before a bound, in constant time. */
    public SortedSet<E> headSet(E to) {
        return headSet(to, false);
    }

    /** Makes a view of the elements from a bound on, in constant time. */
    public SortedSet<E> tailSet(E from) {
        return tailSet(from, true);
    }
}
