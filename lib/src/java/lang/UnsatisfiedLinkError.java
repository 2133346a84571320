package java.lang;

/** A native method is missing. */
public class UnsatisfiedLinkError extends LinkageError {
    /** Makes one without a message, in constant time. */
    public UnsatisfiedLinkError() {
    }

    /** Makes one with a message, in constant time. */
    public UnsatisfiedLinkError(String message) {
        super(message);
    }
}
