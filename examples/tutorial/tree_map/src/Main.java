import java.util.Iterator;
import java.util.NoSuchElementException;

/** A sorted map of one's own: a generic tree with an iterator. */
public class Main<K extends Comparable<K>, V> implements Iterable<K> {
    private static class Node<K, V> {
        final K key;
        V value;
        Node<K, V> left, right, parent;

        Node(K key, V value, Node<K, V> parent) {
            this.key = key;
            this.value = value;
            this.parent = parent;
        }
    }

    private Node<K, V> root;

    V put(K key, V value) {
        Node<K, V> parent = null;
        Node<K, V> node = root;
        while (node != null) {
            int order = key.compareTo(node.key);
            if (order == 0) {
                V old = node.value;
                node.value = value;
                return old;
            }
            parent = node;
            node = order < 0 ? node.left : node.right;
        }
        Node<K, V> made = new Node<K, V>(key, value, parent);
        if (parent == null) {
            root = made;
        } else if (key.compareTo(parent.key) < 0) {
            parent.left = made;
        } else {
            parent.right = made;
        }
        return null;
    }

    V get(K key) {
        Node<K, V> node = root;
        while (node != null && !node.key.equals(key)) {
            node = key.compareTo(node.key) < 0 ? node.left : node.right;
        }
        return node == null ? null : node.value;
    }

    private static <K, V> Node<K, V> first(Node<K, V> node) {
        while (node != null && node.left != null) {
            node = node.left;
        }
        return node;
    }

    public Iterator<K> iterator() {
        return new Iterator<K>() {
            private Node<K, V> next = first(root);

            public boolean hasNext() {
                return next != null;
            }

            public K next() {
                if (next == null) {
                    throw new NoSuchElementException();
                }
                Node<K, V> node = next;
                if (node.right != null) {
                    next = first(node.right);
                } else {
                    while (next.parent != null && next == next.parent.right) {
                        next = next.parent;
                    }
                    next = next.parent;
                }
                return node.key;
            }

            public void remove() {
                throw new UnsupportedOperationException();
            }
        };
    }

    public static void main(String[] args) {
        Main<String, Integer> ages = new Main<String, Integer>();
        ages.put("mia", 7);
        ages.put("leo", 9);
        ages.put("zoe", 5);
        ages.put("ben", 8);
        System.out.println(ages.put("leo", 10) + " " + ages.get("leo") + " " + ages.get("tim"));
        for (String name : ages) {
            System.out.println(name + " " + ages.get(name));
        }
    }
}
