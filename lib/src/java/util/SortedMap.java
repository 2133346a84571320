package java.util;

/** A map whose keys are in an order. The costs are those of the classes that implement it. */
public interface SortedMap<K, V> extends Map<K, V> {
    /** Returns the order of the keys, or null where it is the natural one. */
    Comparator<? super K> comparator();

    /** Makes a view of the keys from {@code from} to before {@code to}. */
    SortedMap<K, V> subMap(K from, K to);

    /** Makes a view of the keys before {@code to}. */
    SortedMap<K, V> headMap(K to);

    /** Makes a view of the keys from {@code from} on. */
    SortedMap<K, V> tailMap(K from);

    /** Returns the least key, or throws NoSuchElementException. */
    K firstKey();

    /** Returns the greatest key, or throws NoSuchElementException. */
    K lastKey();
}
