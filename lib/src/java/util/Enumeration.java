package java.util;

/** Goes through elements once, as the oldest classes do. */
public interface Enumeration<E> {
    /** Reports whether there are more elements. */
    boolean hasMoreElements();

    /** Returns the next element, or throws NoSuchElementException. */
    E nextElement();
}
