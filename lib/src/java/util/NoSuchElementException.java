package java.util;

/** There is no element left. */
public class NoSuchElementException extends RuntimeException {
    /** Makes one without a message, in constant time. */
    public NoSuchElementException() {
    }

    /** Makes one with a message, in constant time. */
    public NoSuchElementException(String message) {
        super(message);
    }
}
