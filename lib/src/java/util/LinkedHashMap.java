package java.util;

/**
 * A hash map whose keys come in the order in which they were put first. (An order by use would need a constructor with a float.)
 *
 * <p>What stays is what stays of a HashMap.
 */
public class LinkedHashMap<K, V> extends HashMap<K, V> {
    private Linked<K, V> eldest;
    private Linked<K, V> youngest;

    /** Makes an empty map with room for twelve keys, in constant time. */
    public LinkedHashMap() {
    }

    /** Makes an empty map with a table of at least {@code capacity} places, in constant time. */
    public LinkedHashMap(int capacity) {
        super(capacity);
    }

    /** Makes a map of the keys and values of another one, in linear time. */
    public LinkedHashMap(Map<? extends K, ? extends V> others) {
        putEach(others, false);
    }

    /** An entry between those that were put before and after it. */
    static final class Linked<K, V> extends HashMap.Node<K, V> {
        Linked<K, V> before;
        Linked<K, V> behind;

        Linked() {
        }
    }

    HashMap.Node<K, V> makeNode() {
        return new Linked<K, V>();
    }

    void added(HashMap.Node<K, V> node) {
        Linked<K, V> linked = (Linked<K, V>) node;
        linked.before = youngest;
        linked.behind = null;
        if (youngest == null) {
            eldest = linked;
        } else {
            youngest.behind = linked;
        }
        youngest = linked;
    }

    void evict() {
        K key = eldest.key;
        if (removeEldestEntry(eldest)) {
            HashMap.Node<K, V> node = find(key);
            if (node != null) {
                unlink(node);
            }
        }
    }

    void removed(HashMap.Node<K, V> node) {
        Linked<K, V> linked = (Linked<K, V>) node;
        if (linked.before == null) {
            eldest = linked.behind;
        } else {
            linked.before.behind = linked.behind;
        }
        if (linked.behind == null) {
            youngest = linked.before;
        } else {
            linked.behind.before = linked.before;
        }
    }

    HashMap.Node<K, V> first() {
        return eldest;
    }

    HashMap.Node<K, V> after(HashMap.Node<K, V> node) {
        return ((Linked<K, V>) node).behind;
    }

    /**
     * Is asked once a key was added whether the eldest one is to be removed: no, but a class below may say yes. It may remove keys itself.
     * It may not keep the entry, which serves again once its key is removed. Constant time.
     */
    protected boolean removeEldestEntry(Map.Entry<K, V> eldest) {
        return false;
    }

    /** Removes all keys, in the time of the table, which keeps its length. */
    public void clear() {
        super.clear();
        eldest = null;
        youngest = null;
    }

    /** Makes a map of the same keys and values in the same order, in linear time. */
    public Object clone() {
        return new LinkedHashMap<K, V>(this);
    }
}
