package java.lang;

/** A thread is in another state. */
public class IllegalThreadStateException extends IllegalArgumentException {
    /** Makes one without a message, in constant time. */
    public IllegalThreadStateException() {
    }

    /** Makes one with a message, in constant time. */
    public IllegalThreadStateException(String message) {
        super(message);
    }
}
