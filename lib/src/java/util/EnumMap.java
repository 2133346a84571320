package java.util;

import java.io.Serializable;

/**
 * A map whose keys are constants of an enum, in their order: a place for each constant up to the last one that was put.
 *
 * <p>What stays: the array of keys and the one of values.
 */
public class EnumMap<K extends Enum<K>, V> extends AbstractMap<K, V> implements Cloneable, Serializable {
    private static final int FEW = 8;

    private final Class<K> type;
    private Object[] keys = new Object[FEW];
    private Object[] values = new Object[FEW];
    private int size;

    /** Makes an empty map for the constants of a class, in constant time. */
    public EnumMap(Class<K> type) {
        type.getName();
        this.type = type;
    }

    /** Makes a map of the same entries, in linear time. */
    public EnumMap(EnumMap<K, ? extends V> others) {
        type = others.type;
        putAll(others);
    }

    /** Makes a map of the entries of a map that has some, or is a map of constants, in linear time. */
    public EnumMap(Map<K, ? extends V> others) {
        if (others instanceof EnumMap) {
            type = ((EnumMap<K, ? extends V>) others).type;
        } else if (others.isEmpty()) {
            throw new IllegalArgumentException("Specified map is empty");
        } else {
            type = others.keySet().iterator().next().getDeclaringClass();
        }
        putAll(others);
    }

    /** The place of a key, or -1 where it isn't there. */
    private int placeOf(Object key) {
        if (!(key instanceof Enum)) {
            return -1;
        }
        int place = ((Enum<?>) key).ordinal();
        return place < keys.length && keys[place] == key ? place : -1;
    }

    /** Returns the number of entries, in constant time. */
    public int size() {
        return size;
    }

    /** Reports whether a constant is a key, in constant time. */
    public boolean containsKey(Object key) {
        return placeOf(key) >= 0;
    }

    /** Returns the value of a constant, or null, in constant time. */
    public V get(Object key) {
        int place = placeOf(key);
        return place < 0 ? null : (V) values[place];
    }

    /** Puts a value, and returns the old one, in constant time on average. */
    public V put(K key, V value) {
        int place = key.ordinal();
        if (place >= keys.length) {
            int length = place < 2 * keys.length ? 2 * keys.length : place + 1;
            keys = larger(keys, length);
            values = larger(values, length);
        }
        V old = (V) values[place];
        size += keys[place] == null ? 1 : 0;
        keys[place] = key;
        values[place] = value;
        return old;
    }

    private static Object[] larger(Object[] from, int length) {
        Object[] to = new Object[length];
        for (int index = 0; index < from.length; index++) {
            to[index] = from[index];
        }
        return to;
    }

    /** Removes a key, and returns its value, in constant time. */
    public V remove(Object key) {
        int place = placeOf(key);
        return place < 0 ? null : removeAt(place);
    }

    private V removeAt(int place) {
        V old = (V) values[place];
        keys[place] = null;
        values[place] = null;
        size--;
        return old;
    }

    /** Removes all entries, in the time of the places. */
    public void clear() {
        keys = new Object[FEW];
        values = new Object[FEW];
        size = 0;
    }

    /** Makes a view, in constant time. */
    public Set<Map.Entry<K, V>> entrySet() {
        return new Entries<K, V>(this);
    }

    /** Makes a map of the same entries, in linear time. */
    public EnumMap<K, V> clone() {
        return new EnumMap<K, V>(this);
    }

    /** The entries. */
    private static final class Entries<K extends Enum<K>, V> extends AbstractSet<Map.Entry<K, V>> {
        private final EnumMap<K, V> map;

        Entries(EnumMap<K, V> map) {
            this.map = map;
        }

        public int size() {
            return map.size;
        }

        public boolean contains(Object other) {
            if (!(other instanceof Map.Entry)) {
                return false;
            }
            Map.Entry<?, ?> entry = (Map.Entry<?, ?>) other;
            return map.containsKey(entry.getKey()) && Objects.equals(map.get(entry.getKey()), entry.getValue());
        }

        public void clear() {
            map.clear();
        }

        public Iterator<Map.Entry<K, V>> iterator() {
            return new Walk<K, V>(map);
        }
    }

    /** Goes through the entries in the order of the constants. */
    private static final class Walk<K extends Enum<K>, V> implements Iterator<Map.Entry<K, V>> {
        private final EnumMap<K, V> map;
        private int next;
        private int last = -1;

        Walk(EnumMap<K, V> map) {
            this.map = map;
        }

        public boolean hasNext() {
            while (next < map.keys.length && map.keys[next] == null) {
                next++;
            }
            return next < map.keys.length;
        }

        public Map.Entry<K, V> next() {
            if (!hasNext()) {
                throw new NoSuchElementException();
            }
            last = next++;
            return new Entry<K, V>(map, (K) map.keys[last]);
        }

        public void remove() {
            if (last < 0) {
                throw new IllegalStateException();
            }
            if (map.keys[last] != null) {
                map.removeAt(last);
            }
            last = -1;
        }
    }

    /** A key with its value, which is that of the map. */
    private static final class Entry<K extends Enum<K>, V> extends AnyEntry<K, V> {
        private final EnumMap<K, V> map;
        private final K key;

        Entry(EnumMap<K, V> map, K key) {
            this.map = map;
            this.key = key;
        }

        public K getKey() {
            return key;
        }

        public V getValue() {
            return map.get(key);
        }

        public V setValue(V value) {
            return map.put(key, value);
        }
    }
}
