package java.util;

/**
 * Goes through elements once. A class that implements it has to have {@code remove} too, as in Java 5: there is no default
 * method that it could inherit.
 */
public interface Iterator<E> {
    /** Reports whether there is a next element. */
    boolean hasNext();

    /** Goes on and returns the element, or throws NoSuchElementException where there is none. */
    E next();

    /** Removes the element that {@code next} returned last, or throws UnsupportedOperationException or IllegalStateException. */
    void remove();
}
