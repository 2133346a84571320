package java.util;

/** A collection changed while an iterator was on its way. */
public class ConcurrentModificationException extends RuntimeException {
    /** Makes one without a message, in constant time. */
    public ConcurrentModificationException() {
    }

    /** Makes one with a message, in constant time. */
    public ConcurrentModificationException(String message) {
        super(message);
    }
}
