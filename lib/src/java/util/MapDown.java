package java.util;

/** A view of a map in the opposite order. */
final class MapDown<K, V> extends OrderedMap<K, V> {
    private final OrderedMap<K, V> map;

    MapDown(OrderedMap<K, V> map) {
        this.map = map;
    }

    Map.Entry<K, V> least() {
        return map.greatest();
    }

    Map.Entry<K, V> greatest() {
        return map.least();
    }

    Map.Entry<K, V> above(K key, boolean orAt) {
        return map.below(key, orAt);
    }

    Map.Entry<K, V> below(K key, boolean orAt) {
        return map.above(key, orAt);
    }

    int changes() {
        return map.changes();
    }

    void show() {
        map.show();
    }

    boolean mayBound(K key, boolean withKey) {
        return map.mayBound(key, withKey);
    }

    public Comparator<? super K> comparator() {
        return Collections.reverseOrder((Comparator<K>) map.comparator());
    }

    public NavigableMap<K, V> descendingMap() {
        return map;
    }

    public int size() {
        return map.size();
    }

    public boolean isEmpty() {
        return map.isEmpty();
    }

    public boolean containsKey(Object key) {
        return map.containsKey(key);
    }

    public V get(Object key) {
        return map.get(key);
    }

    public V put(K key, V value) {
        return map.put(key, value);
    }

    public V remove(Object key) {
        return map.remove(key);
    }

    public void clear() {
        map.clear();
    }
}
