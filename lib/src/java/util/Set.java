package java.util;

/** Elements of which no two are equal. The costs are those of the classes that implement it. */
public interface Set<E> extends Collection<E> {
    /** Reports whether the other object is a set of the same elements. */
    boolean equals(Object other);

    /** Returns the sum of the elements' hashes. */
    int hashCode();
}
