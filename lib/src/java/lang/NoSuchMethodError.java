package java.lang;

/** A method is missing. */
public class NoSuchMethodError extends IncompatibleClassChangeError {
    /** Makes one without a message, in constant time. */
    public NoSuchMethodError() {
    }

    /** Makes one with a message, in constant time. */
    public NoSuchMethodError(String message) {
        super(message);
    }
}
