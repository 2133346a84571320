package java.lang;

/**
 * What has a natural order. {@code String} is one of these where a program brings what completes it; the sorted classes of this library
 * compare two texts by {@code String.compareTo} in any case.
 */
public interface Comparable<T> {
    /** Compares this object with another: a negative number, zero or a positive one. Its cost is the class's own. */
    int compareTo(T other);
}
