package java.util;

/** A map in an order that finds neighbours. The costs are those of the classes that implement it. */
public interface NavigableMap<K, V> extends SortedMap<K, V> {
    /** Returns the entry of the greatest key below the given one, or null. */
    Map.Entry<K, V> lowerEntry(K key);

    /** Returns the greatest key below the given one, or null. */
    K lowerKey(K key);

    /** Returns the entry of the greatest key at or below the given one, or null. */
    Map.Entry<K, V> floorEntry(K key);

    /** Returns the greatest key at or below the given one, or null. */
    K floorKey(K key);

    /** Returns the entry of the least key at or above the given one, or null. */
    Map.Entry<K, V> ceilingEntry(K key);

    /** Returns the least key at or above the given one, or null. */
    K ceilingKey(K key);

    /** Returns the entry of the least key above the given one, or null. */
    Map.Entry<K, V> higherEntry(K key);

    /** Returns the least key above the given one, or null. */
    K higherKey(K key);

    /** Returns the entry of the least key, or null. */
    Map.Entry<K, V> firstEntry();

    /** Returns the entry of the greatest key, or null. */
    Map.Entry<K, V> lastEntry();

    /** Removes the least key and returns its entry, or returns null. */
    Map.Entry<K, V> pollFirstEntry();

    /** Removes the greatest key and returns its entry, or returns null. */
    Map.Entry<K, V> pollLastEntry();

    /** Makes a view in the opposite order. */
    NavigableMap<K, V> descendingMap();

    /** Makes a view of the keys in their order. */
    NavigableSet<K> navigableKeySet();

    /** Makes a view of the keys in the opposite order. */
    NavigableSet<K> descendingKeySet();

    /** Makes a view of the keys between two, each with or without the bound itself. */
    NavigableMap<K, V> subMap(K from, boolean withFrom, K to, boolean withTo);

    /** Makes a view of the keys before a bound, with or without the bound itself. */
    NavigableMap<K, V> headMap(K to, boolean withTo);

    /** Makes a view of the keys from a bound on, with or without the bound itself. */
    NavigableMap<K, V> tailMap(K from, boolean withFrom);
}
