package java.util;

/** A view of the keys of a map on one side of a bound. */
final class MapPart<K, V> extends OrderedMap<K, V> {
    private final OrderedMap<K, V> map;
    private final K bound;
    private final boolean withBound;
    /** Whether the keys are before the bound, not behind it. */
    private final boolean isHead;

    MapPart(OrderedMap<K, V> map, K bound, boolean withBound, boolean isHead) {
        this.map = map;
        this.bound = bound;
        this.withBound = withBound;
        this.isHead = isHead;
    }

    private boolean isInside(K key) {
        int compared = map.compare(key, bound);
        return compared == 0 ? withBound : compared < 0 == isHead;
    }

    private Map.Entry<K, V> inside(Map.Entry<K, V> entry) {
        return entry != null && isInside(entry.getKey()) ? entry : null;
    }

    Map.Entry<K, V> least() {
        return isHead ? inside(map.least()) : map.above(bound, withBound);
    }

    Map.Entry<K, V> greatest() {
        return isHead ? map.below(bound, withBound) : inside(map.greatest());
    }

    Map.Entry<K, V> above(K key, boolean orAt) {
        return !isHead && !isInside(key) ? least() : inside(map.above(key, orAt));
    }

    Map.Entry<K, V> below(K key, boolean orAt) {
        return isHead && !isInside(key) ? greatest() : inside(map.below(key, orAt));
    }

    int changes() {
        return map.changes();
    }

    void show() {
        map.show();
    }

    boolean mayBound(K key, boolean withKey) {
        return map.mayBound(key, withKey) && (isInside(key) || !withKey && map.compare(key, bound) == 0);
    }

    public Comparator<? super K> comparator() {
        return map.comparator();
    }

    public int size() {
        int count = 0;
        for (Map.Entry<K, V> entry = least(); entry != null; entry = above(entry.getKey(), false)) {
            count++;
        }
        return count;
    }

    public boolean isEmpty() {
        return least() == null;
    }

    public boolean containsKey(Object key) {
        return isInside((K) key) && map.containsKey(key);
    }

    public V get(Object key) {
        return isInside((K) key) ? map.get(key) : null;
    }

    public V put(K key, V value) {
        if (!isInside(key)) {
            throw new IllegalArgumentException("key out of range");
        }
        return map.put(key, value);
    }

    public V remove(Object key) {
        return isInside((K) key) ? map.remove(key) : null;
    }
}
