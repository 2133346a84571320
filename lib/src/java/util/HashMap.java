package java.util;

import java.io.Serializable;

/**
 * A map by the keys' hashes. It is full at three quarters of its table, which then doubles. Keys come in the order of the table, as
 * Java has it where no place of the table has more than eight keys; a place keeps its keys in a list, however many they are.
 *
 * <p>What stays: the table, each table that it grew out of, and the entries. Those of removed keys serve again in the same map, until
 * its {@code entrySet} is gone through, since from then on somebody may have them. {@code new HashMap(n)} with enough room makes one
 * table only.
 */
public class HashMap<K, V> extends AbstractMap<K, V> implements Map<K, V>, Cloneable, Serializable {
    private static final int FIRST_CAPACITY = 16;
    private static final int GREATEST_CAPACITY = 1 << 30;
    /** With that many keys at one place, a table shorter than below is doubled too. */
    private static final int CROWD = 8;
    private static final int CROWDED_CAPACITY = 64;

    /** The places, each with the first of its entries; null until the first key is put. */
    private Node<K, V>[] table;
    /** The length that the table is to have. */
    private int capacity;
    private int size;
    int modCount;
    /** The entries that are to serve again, the next one behind each. */
    private Node<K, V> spare;
    private boolean areShown;

    /** Makes an empty map with room for twelve keys, in constant time. */
    public HashMap() {
    }

    /** Makes an empty map with a table of at least {@code capacity} places, in constant time. */
    public HashMap(int capacity) {
        if (capacity < 0) {
            throw new IllegalArgumentException(new StringBuilder().append("Illegal initial capacity: ").append(capacity).toString());
        }
        this.capacity = powerFrom(capacity);
    }

    /** Makes a map of the keys and values of another one, in linear time. */
    public HashMap(Map<? extends K, ? extends V> others) {
        putEach(others, false);
    }

    private static int powerFrom(int capacity) {
        return capacity <= 1 ? 1 : capacity > GREATEST_CAPACITY / 2 ? GREATEST_CAPACITY : Integer.highestOneBit(capacity - 1) << 1;
    }

    /** A key with its value, and the next one at the same place. */
    static class Node<K, V> extends AnyEntry<K, V> {
        int hash;
        K key;
        V value;
        Node<K, V> next;

        Node() {
        }

        public K getKey() {
            return key;
        }

        public V getValue() {
            return value;
        }

        public V setValue(V value) {
            V old = this.value;
            this.value = value;
            return old;
        }
    }

    private static int hash(Object key) {
        int hash = Objects.hashCode(key);
        return hash ^ hash >>> 16;
    }

    private static boolean isAt(Node<?, ?> node, int hash, Object key) {
        return node.hash == hash && Objects.equals(key, node.key);
    }

    /** Returns the entry of a key, or null. */
    Node<K, V> find(Object key) {
        if (table == null) {
            return null;
        }
        int hash = hash(key);
        Node<K, V> node = table[hash & table.length - 1];
        while (node != null && !isAt(node, hash, key)) {
            node = node.next;
        }
        return node;
    }

    /** Returns the entry where an iterator begins, or null. */
    Node<K, V> first() {
        return firstFrom(0);
    }

    /** Returns the entry behind another one in the order of iterators, or null. */
    Node<K, V> after(Node<K, V> node) {
        return node.next != null ? node.next : firstFrom((node.hash & table.length - 1) + 1);
    }

    private Node<K, V> firstFrom(int index) {
        if (table != null) {
            for (; index < table.length; index++) {
                if (table[index] != null) {
                    return table[index];
                }
            }
        }
        return null;
    }

    Iterator<Map.Entry<K, V>> entries() {
        return new HashEntryWalk<K, V>(this);
    }

    /** Returns the number of keys, in constant time. */
    public int size() {
        return size;
    }

    /** Reports whether there are no keys, in constant time. */
    public boolean isEmpty() {
        return size == 0;
    }

    /** Returns the value of a key, or null, in constant time where hashes differ. */
    public V get(Object key) {
        Node<K, V> node = find(key);
        return node == null ? null : node.value;
    }

    /** Returns the value of a key, or the other one, in constant time where hashes differ. */
    public V getOrDefault(Object key, V other) {
        Node<K, V> node = find(key);
        return node == null ? other : node.value;
    }

    /** Reports whether there is an equal key, in constant time where hashes differ. */
    public boolean containsKey(Object key) {
        return find(key) != null;
    }

    /** Looks for an equal value, in the time of the table and the keys. */
    public boolean containsValue(Object value) {
        for (Node<K, V> node = first(); node != null; node = after(node)) {
            if (Objects.equals(value, node.value)) {
                return true;
            }
        }
        return false;
    }

    /** Gives a key a value, in constant time where hashes differ and the table doesn't grow. */
    public V put(K key, V value) {
        Node<K, V> node = find(key);
        if (node != null) {
            return node.setValue(value);
        }
        add(key, value);
        evict();
        return null;
    }

    /** Gives a key a value where it has none or null, in the time of {@code put}. */
    public V putIfAbsent(K key, V value) {
        Node<K, V> node = find(key);
        if (node == null) {
            add(key, value);
            evict();
            return null;
        }
        return node.value == null ? node.setValue(value) : node.value;
    }

    /** Adds a key that isn't there. */
    private void add(K key, V value) {
        if (table == null) {
            resize(capacity == 0 ? FIRST_CAPACITY : capacity);
        }
        Node<K, V> made = takeNode();
        made.hash = hash(key);
        made.key = key;
        made.value = value;
        int before = append(table, made);
        if (before >= CROWD && table.length < CROWDED_CAPACITY) {
            resize(2 * table.length);
        }
        size++;
        modCount++;
        if (size > limit()) {
            grow();
        }
        added(made);
    }

    private Node<K, V> takeNode() {
        Node<K, V> taken = spare;
        if (taken == null) {
            return makeNode();
        }
        spare = taken.next;
        taken.next = null;
        return taken;
    }

    /** Makes an entry: LinkedHashMap makes its own. */
    Node<K, V> makeNode() {
        return new Node<K, V>();
    }

    /** Is called when a key was added: LinkedHashMap links its entry. */
    void added(Node<K, V> node) {
    }

    /** Is called once a key was added to a map that isn't just being made: LinkedHashMap may remove another one. */
    void evict() {
    }

    /** Is called when a key was removed: LinkedHashMap unlinks its entry. */
    void removed(Node<K, V> node) {
    }

    /** Appends an entry to those at its place, and returns how many there were. */
    private static <K, V> int append(Node<K, V>[] table, Node<K, V> node) {
        int index = node.hash & table.length - 1;
        Node<K, V> last = table[index];
        if (last == null) {
            table[index] = node;
            return 0;
        }
        int count = 1;
        while (last.next != null) {
            last = last.next;
            count++;
        }
        last.next = node;
        return count;
    }

    /** How many keys there may be before the table grows. */
    private int limit() {
        return table.length == GREATEST_CAPACITY ? Integer.MAX_VALUE : table.length / 4 * 3 + table.length % 4 * 3 / 4;
    }

    private void grow() {
        if (table.length < GREATEST_CAPACITY) {
            resize(2 * table.length);
        }
    }

    private void resize(int length) {
        Node<K, V>[] resized = (Node<K, V>[]) new Node[length];
        Node<K, V> node = firstFrom(0);
        while (node != null) {
            Node<K, V> following = node.next != null ? node.next : firstFrom((node.hash & table.length - 1) + 1);
            node.next = null;
            append(resized, node);
            node = following;
        }
        table = resized;
    }

    /** Puts all of another map, in the time of its entries and, where the table grows, of the keys. It doesn't call {@code put}. */
    public void putAll(Map<? extends K, ? extends V> others) {
        putEach(others, true);
    }

    /** Puts all of another map, by no method that a class below may override but {@code removeEldestEntry}, where that is to be asked. */
    final void putEach(Map<? extends K, ? extends V> others, boolean mayEvict) {
        int count = others.size();
        if (count > 0 && table == null) {
            capacity = Math.max(capacity, powerFrom((int) Math.min(count * 4L / 3 + 1, GREATEST_CAPACITY)));
        }
        while (table != null && count > limit()) {
            grow();
        }
        Iterator<Map.Entry<K, V>> entries = AbstractMap.<K, V>entriesOf(others);
        while (entries.hasNext()) {
            Map.Entry<K, V> each = entries.next();
            Node<K, V> node = find(each.getKey());
            if (node != null) {
                node.setValue(each.getValue());
                continue;
            }
            add(each.getKey(), each.getValue());
            if (mayEvict) {
                evict();
            }
        }
    }

    /** Removes a key, in constant time where hashes differ. */
    public V remove(Object key) {
        Node<K, V> node = find(key);
        if (node == null) {
            return null;
        }
        V value = node.value;
        unlink(node);
        return value;
    }

    /** Removes an entry of this map. */
    void unlink(Node<K, V> node) {
        int index = node.hash & table.length - 1;
        Node<K, V> before = table[index];
        if (before == node) {
            table[index] = node.next;
        } else {
            while (before.next != node) {
                before = before.next;
            }
            before.next = node.next;
        }
        size--;
        modCount++;
        removed(node);
        if (!areShown) {
            node.next = spare;
            spare = node;
        }
    }

    /** Removes all keys, in the time of the table, which keeps its length, and of the keys. */
    public void clear() {
        modCount++;
        size = 0;
        for (int index = 0; table != null && index < table.length; index++) {
            Node<K, V> node = table[index];
            table[index] = null;
            while (node != null && !areShown) {
                Node<K, V> following = node.next;
                node.next = spare;
                spare = node;
                node = following;
            }
        }
    }

    /** Makes a map of the same keys and values, in linear time. */
    public Object clone() {
        return new HashMap<K, V>(this);
    }

    /** Makes a view, in constant time; its iterator goes through the table and the keys. */
    public Set<K> keySet() {
        return new HashKeys<K, V>(this);
    }

    /** Makes a view, in constant time; its iterator goes through the table and the keys. */
    public Collection<V> values() {
        return new HashValues<K, V>(this);
    }

    /** Makes a view, in constant time; its iterator goes through the table and the keys. */
    public Set<Map.Entry<K, V>> entrySet() {
        return new HashEntries<K, V>(this);
    }

    /** The keys. */
    static final class HashKeys<K, V> extends AbstractSet<K> {
        private final HashMap<K, V> map;

        HashKeys(HashMap<K, V> map) {
            this.map = map;
        }

        public int size() {
            return map.size;
        }

        public boolean contains(Object key) {
            return map.containsKey(key);
        }

        public boolean remove(Object key) {
            Node<K, V> node = map.find(key);
            if (node != null) {
                map.unlink(node);
            }
            return node != null;
        }

        public void clear() {
            map.clear();
        }

        public Iterator<K> iterator() {
            return new HashKeyWalk<K, V>(map);
        }
    }

    /** The values. */
    static final class HashValues<K, V> extends AbstractCollection<V> {
        private final HashMap<K, V> map;

        HashValues(HashMap<K, V> map) {
            this.map = map;
        }

        public int size() {
            return map.size;
        }

        public boolean contains(Object value) {
            return map.containsValue(value);
        }

        public void clear() {
            map.clear();
        }

        public Iterator<V> iterator() {
            return new HashValueWalk<K, V>(map);
        }
    }

    /** The keys with their values. */
    static final class HashEntries<K, V> extends AbstractSet<Map.Entry<K, V>> {
        private final HashMap<K, V> map;

        HashEntries(HashMap<K, V> map) {
            this.map = map;
        }

        public int size() {
            return map.size;
        }

        private Node<K, V> find(Object entry) {
            if (!(entry instanceof Map.Entry)) {
                return null;
            }
            Node<K, V> node = map.find(((Map.Entry<?, ?>) entry).getKey());
            return node != null && node.equals(entry) ? node : null;
        }

        public boolean contains(Object entry) {
            return find(entry) != null;
        }

        public boolean remove(Object entry) {
            Node<K, V> node = find(entry);
            if (node != null) {
                map.unlink(node);
            }
            return node != null;
        }

        public void clear() {
            map.clear();
        }

        public Iterator<Map.Entry<K, V>> iterator() {
            map.areShown = true;
            return new HashEntryWalk<K, V>(map);
        }
    }

    /** Goes through the entries of a map. */
    abstract static class HashWalk<K, V> {
        private final HashMap<K, V> map;
        private Node<K, V> following;
        private Node<K, V> last;
        private int expected;

        HashWalk(HashMap<K, V> map) {
            this.map = map;
            following = map.first();
            expected = map.modCount;
        }

        public boolean hasNext() {
            return following != null;
        }

        Node<K, V> nextNode() {
            if (map.modCount != expected) {
                throw new ConcurrentModificationException();
            }
            if (following == null) {
                throw new NoSuchElementException();
            }
            last = following;
            following = map.after(last);
            return last;
        }

        public void remove() {
            if (last == null) {
                throw new IllegalStateException();
            }
            if (map.modCount != expected) {
                throw new ConcurrentModificationException();
            }
            map.unlink(last);
            last = null;
            expected = map.modCount;
        }
    }

    /** Goes through the keys. */
    static final class HashKeyWalk<K, V> extends HashWalk<K, V> implements Iterator<K> {
        HashKeyWalk(HashMap<K, V> map) {
            super(map);
        }

        public K next() {
            return nextNode().key;
        }
    }

    /** Goes through the values. */
    static final class HashValueWalk<K, V> extends HashWalk<K, V> implements Iterator<V> {
        HashValueWalk(HashMap<K, V> map) {
            super(map);
        }

        public V next() {
            return nextNode().value;
        }
    }

    /** Goes through the entries. */
    static final class HashEntryWalk<K, V> extends HashWalk<K, V> implements Iterator<Map.Entry<K, V>> {
        HashEntryWalk(HashMap<K, V> map) {
            super(map);
        }

        public Map.Entry<K, V> next() {
            return nextNode();
        }
    }
}
