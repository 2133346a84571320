package java.lang;

/** Something is not allowed. */
public class SecurityException extends RuntimeException {
    /** Makes one without a message, in constant time. */
    public SecurityException() {
    }

    /** Makes one with a message, in constant time. */
    public SecurityException(String message) {
        super(message);
    }
}
