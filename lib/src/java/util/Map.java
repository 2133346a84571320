package java.util;

/** Keys, each with a value. The costs are those of the classes that implement it. */
public interface Map<K, V> {
    /** Returns how many keys there are. */
    int size();

    /** Reports whether there are none. */
    boolean isEmpty();

    /** Reports whether there is an equal key. */
    boolean containsKey(Object key);

    /** Reports whether a key has an equal value. */
    boolean containsValue(Object value);

    /** Returns the value of a key, or null where there is no such key. */
    V get(Object key);

    /** Returns the value of a key, or another one where there is no such key. */
    V getOrDefault(Object key, V other);

    /** Gives a key a value, and returns the old one, or null. */
    V put(K key, V value);

    /** Gives a key a value where it has none or null, and returns the old one, or null. */
    V putIfAbsent(K key, V value);

    /** Removes a key, and returns its value, or null. */
    V remove(Object key);

    /** Puts all of another map. */
    void putAll(Map<? extends K, ? extends V> others);

    /** Removes all keys. */
    void clear();

    /** Makes a view of the keys. */
    Set<K> keySet();

    /** Makes a view of the values. */
    Collection<V> values();

    /** Makes a view of the keys with their values. */
    Set<Map.Entry<K, V>> entrySet();

    /** Reports whether the other object is a map of the same keys with the same values. */
    boolean equals(Object other);

    /** Returns the sum of the entries' hashes. */
    int hashCode();

    /** A key with its value. */
    interface Entry<K, V> {
        /** Returns the key. */
        K getKey();

        /** Returns the value. */
        V getValue();

        /** Replaces the value, and returns the old one. */
        V setValue(V value);

        /** Reports whether the other object is an entry with an equal key and value. */
        boolean equals(Object other);

        /** Returns the hashes of key and value, combined by exclusive or. */
        int hashCode();
    }
}
