package java.lang;

/** A thread was interrupted. */
public class InterruptedException extends Exception {
    /** Makes one without a message, in constant time. */
    public InterruptedException() {
    }

    /** Makes one with a message, in constant time. */
    public InterruptedException(String message) {
        super(message);
    }
}
