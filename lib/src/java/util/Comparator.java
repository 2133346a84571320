package java.util;

/** An order of objects. */
public interface Comparator<T> {
    /** Compares two objects: a negative number, zero or a positive one. */
    int compare(T one, T other);

    /** Reports whether the other object is the same order. */
    boolean equals(Object other);
}
