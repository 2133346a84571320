package java.util;

/**
 * A map in an order, by four methods of a class below: which entry is the least, the greatest, above a key and below it. All others, views
 * too, are made of these.
 */
abstract class OrderedMap<K, V> extends AbstractMap<K, V> implements NavigableMap<K, V> {
    OrderedMap() {
    }

    /** Returns the least entry, or null. */
    abstract Map.Entry<K, V> least();

    /** Returns the greatest entry, or null. */
    abstract Map.Entry<K, V> greatest();

    /** Returns the least entry above a key, or at it where that is asked for, or null. */
    abstract Map.Entry<K, V> above(K key, boolean orAt);

    /** Returns the greatest entry below a key, or at it where that is asked for, or null. */
    abstract Map.Entry<K, V> below(K key, boolean orAt);

    /** Returns how often keys were added or removed. */
    abstract int changes();

    /** Is called before entries are shown to others, who may keep them. */
    abstract void show();

    /** Reports whether a part may have a bound: one that it is to have, or one that it is not to have, which may be that of this map too. */
    abstract boolean mayBound(K key, boolean withKey);

    Iterator<Map.Entry<K, V>> entries() {
        return new EntryWalk<K, V>(this);
    }

    final int compare(K one, K other) {
        return Natural.compare(one, other, comparator());
    }

    private static <K, V> Map.Entry<K, V> copyOf(Map.Entry<K, V> entry) {
        return entry == null ? null : new AbstractMap.SimpleImmutableEntry<K, V>(entry);
    }

    private void checkBound(String name, K key, boolean withKey) {
        if (!mayBound(key, withKey)) {
            throw new IllegalArgumentException(new StringBuilder().append(name).append(" out of range").toString());
        }
    }

    private static <K> K keyOf(Map.Entry<K, ?> entry) {
        return entry == null ? null : entry.getKey();
    }

    private static <K> K presentKey(Map.Entry<K, ?> entry) {
        if (entry == null) {
            throw new NoSuchElementException();
        }
        return entry.getKey();
    }

    private Map.Entry<K, V> removed(Map.Entry<K, V> entry) {
        Map.Entry<K, V> copy = copyOf(entry);
        if (entry != null) {
            remove(entry.getKey());
        }
        return copy;
    }

    /** Returns the least key, or throws NoSuchElementException, in logarithmic time. */
    public K firstKey() {
        return presentKey(least());
    }

    /** Returns the greatest key, or throws NoSuchElementException, in logarithmic time. */
    public K lastKey() {
        return presentKey(greatest());
    }

    /** Copies the entry of the least key, or returns null, in logarithmic time. */
    public Map.Entry<K, V> firstEntry() {
        return copyOf(least());
    }

    /** Copies the entry of the greatest key, or returns null, in logarithmic time. */
    public Map.Entry<K, V> lastEntry() {
        return copyOf(greatest());
    }

    /** Removes the least key and returns its entry, or returns null, in logarithmic time. */
    public Map.Entry<K, V> pollFirstEntry() {
        return removed(least());
    }

    /** Removes the greatest key and returns its entry, or returns null, in logarithmic time. */
    public Map.Entry<K, V> pollLastEntry() {
        return removed(greatest());
    }

    /** Copies the entry of the greatest key below another, or returns null, in logarithmic time. */
    public Map.Entry<K, V> lowerEntry(K key) {
        return copyOf(below(key, false));
    }

    /** Copies the entry of the greatest key at or below another, or returns null, in logarithmic time. */
    public Map.Entry<K, V> floorEntry(K key) {
        return copyOf(below(key, true));
    }

    /** Copies the entry of the least key at or above another, or returns null, in logarithmic time. */
    public Map.Entry<K, V> ceilingEntry(K key) {
        return copyOf(above(key, true));
    }

    /** Copies the entry of the least key above another, or returns null, in logarithmic time. */
    public Map.Entry<K, V> higherEntry(K key) {
        return copyOf(above(key, false));
    }

    /** Returns the greatest key below another, or null, in logarithmic time. */
    public K lowerKey(K key) {
        return keyOf(below(key, false));
    }

    /** Returns the greatest key at or below another, or null, in logarithmic time. */
    public K floorKey(K key) {
        return keyOf(below(key, true));
    }

    /** Returns the least key at or above another, or null, in logarithmic time. */
    public K ceilingKey(K key) {
        return keyOf(above(key, true));
    }

    /** Returns the least key above another, or null, in logarithmic time. */
    public K higherKey(K key) {
        return keyOf(above(key, false));
    }

    /** Makes a view of the entries, in constant time; its iterator takes logarithmic time for each. */
    public Set<Map.Entry<K, V>> entrySet() {
        return new Entries<K, V>(this);
    }

    /** Makes a view of the keys, in constant time; its iterator takes logarithmic time for each. */
    public Set<K> keySet() {
        return navigableKeySet();
    }

    /** Makes a view of the keys, in constant time; its iterator takes logarithmic time for each. */
    public NavigableSet<K> navigableKeySet() {
        return new OrderedSet<K>((OrderedMap<K, Object>) this, false);
    }

    /** Makes a view of the keys in the opposite order, in constant time. */
    public NavigableSet<K> descendingKeySet() {
        return descendingMap().navigableKeySet();
    }

    /** Makes a view in the opposite order, in constant time. */
    public NavigableMap<K, V> descendingMap() {
        return new MapDown<K, V>(this);
    }

    /** Makes a view of the keys between two, in constant time. */
    public NavigableMap<K, V> subMap(K from, boolean withFrom, K to, boolean withTo) {
        checkBound("fromKey", from, withFrom);
        checkBound("toKey", to, withTo);
        if (compare(from, to) > 0) {
            throw new IllegalArgumentException("fromKey > toKey");
        }
        return new MapPart<K, V>(new MapPart<K, V>(this, from, withFrom, false), to, withTo, true);
    }

    /** Makes a view of the keys before a bound, in constant time. */
    public NavigableMap<K, V> headMap(K to, boolean withTo) {
        checkBound("toKey", to, withTo);
        compare(to, to);
        return new MapPart<K, V>(this, to, withTo, true);
    }

    /** Makes a view of the keys from a bound on, in constant time. */
    public NavigableMap<K, V> tailMap(K from, boolean withFrom) {
        checkBound("fromKey", from, withFrom);
        compare(from, from);
        return new MapPart<K, V>(this, from, withFrom, false);
    }

    /** Makes a view of the keys from one to before another, in constant time. */
    public SortedMap<K, V> subMap(K from, K to) {
        return subMap(from, true, to, false);
    }

    /** Makes a view of the keys before a bound, in constant time. */
    public SortedMap<K, V> headMap(K to) {
        return headMap(to, false);
    }

    /** Makes a view of the keys from a bound on, in constant time. */
    public SortedMap<K, V> tailMap(K from) {
        return tailMap(from, true);
    }

    /** The keys with their values. */
    static final class Entries<K, V> extends AbstractSet<Map.Entry<K, V>> {
        private final OrderedMap<K, V> map;

        Entries(OrderedMap<K, V> map) {
            this.map = map;
        }

        public int size() {
            return map.size();
        }

        public boolean isEmpty() {
            return map.isEmpty();
        }

        public boolean contains(Object entry) {
            if (!(entry instanceof Map.Entry)) {
                return false;
            }
            Object key = ((Map.Entry<?, ?>) entry).getKey();
            return map.containsKey(key) && Objects.equals(map.get(key), ((Map.Entry<?, ?>) entry).getValue());
        }

        public boolean remove(Object entry) {
            boolean isThere = contains(entry);
            if (isThere) {
                map.remove(((Map.Entry<?, ?>) entry).getKey());
            }
            return isThere;
        }

        public Iterator<Map.Entry<K, V>> iterator() {
            map.show();
            return new EntryWalk<K, V>(map);
        }
    }

    /** Goes through the entries, from each to the one above it. */
    static final class EntryWalk<K, V> implements Iterator<Map.Entry<K, V>> {
        private final OrderedMap<K, V> map;
        private Map.Entry<K, V> following;
        private Map.Entry<K, V> last;
        private int expected;

        EntryWalk(OrderedMap<K, V> map) {
            this.map = map;
            following = map.least();
            expected = map.changes();
        }

        public boolean hasNext() {
            return following != null;
        }

        public Map.Entry<K, V> next() {
            if (following == null) {
                throw new NoSuchElementException();
            }
            checkUnchanged();
            last = following;
            following = map.above(last.getKey(), false);
            return last;
        }

        public void remove() {
            if (last == null) {
                throw new IllegalStateException();
            }
            checkUnchanged();
            map.remove(last.getKey());
            last = null;
            expected = map.changes();
        }

        private void checkUnchanged() {
            if (map.changes() != expected) {
                throw new ConcurrentModificationException();
            }
        }
    }
}
