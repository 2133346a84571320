package java.util;

/** The natural order, also of texts, which are no Comparable where nothing completes them. */
final class Natural {
    Natural() {
    }

    static int compare(Object one, Object other) {
        if (one instanceof String) {
            return ((String) one).compareTo((String) other);
        }
        return ((Comparable<Object>) one).compareTo(other);
    }

    /** Compares by an order, or by the natural one where it is null. */
    static <T> int compare(T one, T other, Comparator<? super T> order) {
        return order == null ? compare(one, other) : order.compare(one, other);
    }
}
