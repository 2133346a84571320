package java.lang;

import java.util.Iterator;

/** What a {@code for} over elements takes. */
public interface Iterable<T> {
    /** Makes an iterator over the elements. Its cost is the class's own; those of this library take constant time. */
    Iterator<T> iterator();
}
