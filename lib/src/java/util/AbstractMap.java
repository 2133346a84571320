package java.util;

import java.io.Serializable;
import zuqelash.Texts;

/** What maps have in common: a class adds {@code entrySet}, and {@code put} where it can grow. */
public abstract class AbstractMap<K, V> implements Map<K, V> {
    /** Makes a map, in constant time. */
    protected AbstractMap() {
    }

    /** Makes a view of the keys with their values, at the cost that the class has. */
    public abstract Set<Map.Entry<K, V>> entrySet();

    /** Returns the size of {@code entrySet}. */
    public int size() {
        return entrySet().size();
    }

    /** Reports whether there are no keys, in the time of {@code size}. */
    public boolean isEmpty() {
        return size() == 0;
    }

    /** Makes an iterator over the entries that shows them to nobody else: HashMap then may use them again. */
    Iterator<Map.Entry<K, V>> entries() {
        return entrySet().iterator();
    }

    /** Makes an iterator over the entries of a map, as above where that can be. */
    static <K, V> Iterator<Map.Entry<K, V>> entriesOf(Map<? extends K, ? extends V> others) {
        Map<K, V> map = (Map<K, V>) others;
        return map instanceof AbstractMap ? ((AbstractMap<K, V>) map).entries() : map.entrySet().iterator();
    }

    private Map.Entry<K, V> find(Object key) {
        Iterator<Map.Entry<K, V>> entries = entries();
        while (entries.hasNext()) {
            Map.Entry<K, V> each = entries.next();
            if (Objects.equals(key, each.getKey())) {
                return each;
            }
        }
        return null;
    }

    /** Looks for an equal key, in linear time. */
    public boolean containsKey(Object key) {
        return find(key) != null;
    }

    /** Looks for an equal value, in linear time. */
    public boolean containsValue(Object value) {
        Iterator<Map.Entry<K, V>> entries = entries();
        while (entries.hasNext()) {
            if (Objects.equals(value, entries.next().getValue())) {
                return true;
            }
        }
        return false;
    }

    /** Looks for an equal key, in linear time. */
    public V get(Object key) {
        Map.Entry<K, V> found = find(key);
        return found == null ? null : found.getValue();
    }

    /** Returns what {@code get} does, or the other value where there is no such key: the time of both questions. */
    public V getOrDefault(Object key, V other) {
        V value = get(key);
        return value != null || containsKey(key) ? value : other;
    }

    /** Throws UnsupportedOperationException: a class that can grow overrides it. */
    public V put(K key, V value) {
        throw new UnsupportedOperationException();
    }

    /** Calls {@code put} where {@code get} returns null. */
    public V putIfAbsent(K key, V value) {
        V old = get(key);
        return old == null ? put(key, value) : old;
    }

    /** Looks for an equal key and removes it by the iterator, in linear time. */
    public V remove(Object key) {
        Iterator<Map.Entry<K, V>> each = entrySet().iterator();
        while (each.hasNext()) {
            Map.Entry<K, V> entry = each.next();
            if (Objects.equals(key, entry.getKey())) {
                V value = entry.getValue();
                each.remove();
                return value;
            }
        }
        return null;
    }

    /** Calls {@code put} for each entry of the other map. */
    public void putAll(Map<? extends K, ? extends V> others) {
        Iterator<Map.Entry<K, V>> entries = AbstractMap.<K, V>entriesOf(others);
        while (entries.hasNext()) {
            Map.Entry<K, V> each = entries.next();
            put(each.getKey(), each.getValue());
        }
    }

    /** Clears {@code entrySet}. */
    public void clear() {
        entrySet().clear();
    }

    /** Makes a view, in constant time. */
    public Set<K> keySet() {
        return new KeyView<K, V>(this);
    }

    /** Makes a view, in constant time. */
    public Collection<V> values() {
        return new ValueView<K, V>(this);
    }

    /** Asks {@code get} of the other map for each key, where the sizes are equal. */
    public boolean equals(Object other) {
        if (other == this) {
            return true;
        }
        if (!(other instanceof Map) || ((Map<?, ?>) other).size() != size()) {
            return false;
        }
        Map<?, ?> map = (Map<?, ?>) other;
        Iterator<Map.Entry<K, V>> entries = entries();
        while (entries.hasNext()) {
            Map.Entry<K, V> each = entries.next();
            K key = each.getKey();
            V value = each.getValue();
            if (!Objects.equals(value, map.get(key)) || value == null && !map.containsKey(key)) {
                return false;
            }
        }
        return true;
    }

    /** Adds the entries' hashes, in their time. */
    public int hashCode() {
        int hash = 0;
        Iterator<Map.Entry<K, V>> entries = entries();
        while (entries.hasNext()) {
            hash += entries.next().hashCode();
        }
        return hash;
    }

    /** Returns keys and values in braces, with commas between them, in linear time. */
    public String toString() {
        String[] texts = new String[2 * size()];
        int count = 0;
        Iterator<Map.Entry<K, V>> entries = entries();
        while (count < texts.length && entries.hasNext()) {
            Map.Entry<K, V> each = entries.next();
            K key = each.getKey();
            V value = each.getValue();
            texts[count++] = key == this ? "(this Map)" : Objects.toString(key);
            texts[count++] = value == this ? "(this Map)" : Objects.toString(value);
        }
        return Texts.joined("{", texts, count, "=", ", ", "}");
    }

    /** A key with a value, for itself. */
    public static class SimpleEntry<K, V> extends AnyEntry<K, V> implements Serializable {
        private final K key;
        private V value;

        /** Makes an entry, in constant time. */
        public SimpleEntry(K key, V value) {
            this.key = key;
            this.value = value;
        }

        /** Makes an entry like another one, in constant time. */
        public SimpleEntry(Map.Entry<? extends K, ? extends V> other) {
            this(other.getKey(), other.getValue());
        }

        /** Returns the key, in constant time. */
        public K getKey() {
            return key;
        }

        /** Returns the value, in constant time. */
        public V getValue() {
            return value;
        }

        /** Replaces the value, and returns the old one, in constant time. */
        public V setValue(V value) {
            V old = this.value;
            this.value = value;
            return old;
        }
    }

    /** A key with a value that can't be replaced. */
    public static class SimpleImmutableEntry<K, V> extends AnyEntry<K, V> implements Serializable {
        private final K key;
        private final V value;

        /** Makes an entry, in constant time. */
        public SimpleImmutableEntry(K key, V value) {
            this.key = key;
            this.value = value;
        }

        /** Makes an entry like another one, in constant time. */
        public SimpleImmutableEntry(Map.Entry<? extends K, ? extends V> other) {
            this(other.getKey(), other.getValue());
        }

        /** Returns the key, in constant time. */
        public K getKey() {
            return key;
        }

        /** Returns the value, in constant time. */
        public V getValue() {
            return value;
        }

        /** Throws UnsupportedOperationException, in constant time. */
        public V setValue(V value) {
            throw new UnsupportedOperationException();
        }
    }

    /** The keys of any map. */
    static final class KeyView<K, V> extends AbstractSet<K> {
        private final AbstractMap<K, V> map;

        KeyView(AbstractMap<K, V> map) {
            this.map = map;
        }

        public int size() {
            return map.size();
        }

        public boolean contains(Object key) {
            return map.containsKey(key);
        }

        public void clear() {
            map.clear();
        }

        public Iterator<K> iterator() {
            return new KeyWalk<K, V>(map.entrySet().iterator());
        }
    }

    /** The values of any map. */
    static final class ValueView<K, V> extends AbstractCollection<V> {
        private final AbstractMap<K, V> map;

        ValueView(AbstractMap<K, V> map) {
            this.map = map;
        }

        public int size() {
            return map.size();
        }

        public boolean contains(Object value) {
            return map.containsValue(value);
        }

        public void clear() {
            map.clear();
        }

        public Iterator<V> iterator() {
            return new ValueWalk<K, V>(map.entrySet().iterator());
        }
    }

    /** Goes through the keys of entries. */
    static final class KeyWalk<K, V> implements Iterator<K> {
        private final Iterator<Map.Entry<K, V>> entries;

        KeyWalk(Iterator<Map.Entry<K, V>> entries) {
            this.entries = entries;
        }

        public boolean hasNext() {
            return entries.hasNext();
        }

        public K next() {
            return entries.next().getKey();
        }

        public void remove() {
            entries.remove();
        }
    }

    /** Goes through the values of entries. */
    static final class ValueWalk<K, V> implements Iterator<V> {
        private final Iterator<Map.Entry<K, V>> entries;

        ValueWalk(Iterator<Map.Entry<K, V>> entries) {
            this.entries = entries;
        }

        public boolean hasNext() {
            return entries.hasNext();
        }

        public V next() {
            return entries.next().getValue();
        }

        public void remove() {
            entries.remove();
        }
    }
}
