package java.lang;

/** A class is missing. */
public class NoClassDefFoundError extends LinkageError {
    /** Makes one without a message, in constant time. */
    public NoClassDefFoundError() {
    }

    /** Makes one with a message, in constant time. */
    public NoClassDefFoundError(String message) {
        super(message);
    }
}
