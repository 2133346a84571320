package java.util;

import java.io.Serializable;

/**
 * A map in the order of its keys: a balanced tree, whose nodes have levels (an AA tree). Its views are in that order too. Texts are
 * compared by {@code String.compareTo}.
 *
 * <p>What stays: the nodes. Those of removed keys serve again in the same map, until its {@code entrySet} or that of a view is gone
 * through, since from then on somebody may have them.
 */
public class TreeMap<K, V> extends OrderedMap<K, V> implements Cloneable, Serializable {
    private final Comparator<? super K> order;
    private Node<K, V> root;
    private int size;
    private int changes;
    /** The nodes that are to serve again, the next one on the right of each. */
    private Node<K, V> spare;
    private boolean areShown;

    /** A key with its value: what is before it is on the left, what is behind it on the right. */
    static final class Node<K, V> extends AnyEntry<K, V> {
        K key;
        V value;
        Node<K, V> left;
        Node<K, V> right;
        /** One more than that of the left node; a right node may have the same, but not two in a row. A node without others has 1. */
        int level;

        Node() {
        }

        public K getKey() {
            return key;
        }

        public V getValue() {
            return value;
        }

        public V setValue(V value) {
            V old = this.value;
            this.value = value;
            return old;
        }
    }

    /** Makes an empty map in the natural order, in constant time. */
    public TreeMap() {
        order = null;
    }

    /** Makes an empty map in an order, or in the natural one where it is null, in constant time. */
    public TreeMap(Comparator<? super K> order) {
        this.order = order;
    }

    /** Makes a map of the keys and values of another one in the natural order, in {@code n log n} time. */
    public TreeMap(Map<? extends K, ? extends V> others) {
        order = null;
        putAll(others);
    }

    /** Makes a map of the keys and values of another one in its order, in {@code n log n} time. */
    public TreeMap(SortedMap<K, ? extends V> others) {
        order = others.comparator();
        putAll(others);
    }

    private int compared(Object key, Node<K, V> node) {
        return Natural.compare((K) key, node.key, order);
    }

    private Node<K, V> find(Object key) {
        if (order == null) {
            Objects.requireNonNull(key);
        }
        Node<K, V> node = root;
        while (node != null) {
            int compared = compared(key, node);
            if (compared == 0) {
                return node;
            }
            node = compared < 0 ? node.left : node.right;
        }
        return null;
    }

    Map.Entry<K, V> least() {
        return root == null ? null : leastOf(root);
    }

    private static <K, V> Node<K, V> leastOf(Node<K, V> node) {
        while (node.left != null) {
            node = node.left;
        }
        return node;
    }

    Map.Entry<K, V> greatest() {
        Node<K, V> node = root;
        while (node != null && node.right != null) {
            node = node.right;
        }
        return node;
    }

    Map.Entry<K, V> above(K key, boolean orAt) {
        Node<K, V> found = null;
        Node<K, V> node = root;
        while (node != null) {
            int compared = compared(key, node);
            if (compared < 0 || compared == 0 && orAt) {
                found = node;
                node = node.left;
            } else {
                node = node.right;
            }
        }
        return found;
    }

    Map.Entry<K, V> below(K key, boolean orAt) {
        Node<K, V> found = null;
        Node<K, V> node = root;
        while (node != null) {
            int compared = compared(key, node);
            if (compared > 0 || compared == 0 && orAt) {
                found = node;
                node = node.right;
            } else {
                node = node.left;
            }
        }
        return found;
    }

    int changes() {
        return changes;
    }

    boolean mayBound(K key, boolean withKey) {
        return true;
    }

    void show() {
        areShown = true;
    }

    private Node<K, V> takeNode() {
        Node<K, V> taken = spare;
        if (taken == null) {
            return new Node<K, V>();
        }
        spare = taken.right;
        taken.right = null;
        return taken;
    }

    private void giveNode(Node<K, V> node) {
        if (!areShown) {
            node.left = null;
            node.right = spare;
            spare = node;
        }
    }

    /** Returns the order, or null where it is the natural one, in constant time. */
    public Comparator<? super K> comparator() {
        return order;
    }

    /** Returns the number of keys, in constant time. */
    public int size() {
        return size;
    }

    /** Reports whether there is an equal key, in logarithmic time. */
    public boolean containsKey(Object key) {
        return find(key) != null;
    }

    /** Returns the value of a key, or null, in logarithmic time. */
    public V get(Object key) {
        Node<K, V> node = find(key);
        return node == null ? null : node.value;
    }

    /** Gives a key a value, in logarithmic time. */
    public V put(K key, V value) {
        if (root == null) {
            // (what has no natural order is refused at once)
            compare(key, key);
        }
        Node<K, V> node = root == null ? null : find(key);
        if (node != null) {
            return node.setValue(value);
        }
        root = inserted(root, key, value);
        size++;
        changes++;
        return null;
    }

    /** Returns a tree with a further key. */
    private Node<K, V> inserted(Node<K, V> node, K key, V value) {
        if (node == null) {
            Node<K, V> made = takeNode();
            made.key = key;
            made.value = value;
            made.level = 1;
            return made;
        }
        if (compared(key, node) < 0) {
            node.left = inserted(node.left, key, value);
        } else {
            node.right = inserted(node.right, key, value);
        }
        return split(skewed(node));
    }

    /** Turns a tree to the right where its left node has its level. */
    private static <K, V> Node<K, V> skewed(Node<K, V> node) {
        Node<K, V> left = node.left;
        if (left == null || left.level != node.level) {
            return node;
        }
        node.left = left.right;
        left.right = node;
        return left;
    }

    /** Turns a tree to the left where two nodes on the right have its level. */
    private static <K, V> Node<K, V> split(Node<K, V> node) {
        Node<K, V> right = node.right;
        if (right == null || right.right == null || right.right.level != node.level) {
            return node;
        }
        node.right = right.left;
        right.left = node;
        right.level++;
        return right;
    }

    private static int levelOf(Node<?, ?> node) {
        return node == null ? 0 : node.level;
    }

    /** Balances a tree below which a node was removed. */
    private static <K, V> Node<K, V> balanced(Node<K, V> node) {
        int level = Math.min(levelOf(node.left), levelOf(node.right)) + 1;
        if (level < node.level) {
            node.level = level;
            if (levelOf(node.right) > level) {
                node.right.level = level;
            }
        }
        node = skewed(node);
        if (node.right != null) {
            node.right = skewed(node.right);
            if (node.right.right != null) {
                node.right.right = skewed(node.right.right);
            }
        }
        node = split(node);
        if (node.right != null) {
            node.right = split(node.right);
        }
        return node;
    }

    /** Removes a key, in logarithmic time. */
    public V remove(Object key) {
        Node<K, V> node = find(key);
        if (node == null) {
            return null;
        }
        root = removed(root, key);
        size--;
        changes++;
        giveNode(node);
        return node.value;
    }

    /** Returns a tree without a key that it has. */
    private Node<K, V> removed(Node<K, V> node, Object key) {
        int compared = compared(key, node);
        if (compared < 0) {
            node.left = removed(node.left, key);
        } else if (compared > 0) {
            node.right = removed(node.right, key);
        } else if (node.left == null) {
            return node.right;
        } else if (node.right == null) {
            return node.left;
        } else {
            Node<K, V> next = leastOf(node.right);
            next.right = withoutLeast(node.right);
            next.left = node.left;
            next.level = node.level;
            node = next;
        }
        return balanced(node);
    }

    private static <K, V> Node<K, V> withoutLeast(Node<K, V> node) {
        if (node.left == null) {
            return node.right;
        }
        node.left = withoutLeast(node.left);
        return balanced(node);
    }

    /** Removes all keys, in linear time. */
    public void clear() {
        giveAll(root);
        root = null;
        size = 0;
        changes++;
    }

    private void giveAll(Node<K, V> node) {
        if (node != null && !areShown) {
            giveAll(node.left);
            giveAll(node.right);
            giveNode(node);
        }
    }

    /** Makes a map of the same keys and values in the same order, in {@code n log n} time. */
    public Object clone() {
        return new TreeMap<K, V>((SortedMap<K, V>) this);
    }
}
