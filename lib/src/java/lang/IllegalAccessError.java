package java.lang;

/** A member is not accessible. */
public class IllegalAccessError extends IncompatibleClassChangeError {
    /** Makes one without a message, in constant time. */
    public IllegalAccessError() {
    }

    /** Makes one with a message, in constant time. */
    public IllegalAccessError(String message) {
        super(message);
    }
}
