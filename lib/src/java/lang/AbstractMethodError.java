package java.lang;

/** An abstract method was called. */
public class AbstractMethodError extends IncompatibleClassChangeError {
    /** Makes one without a message, in constant time. */
    public AbstractMethodError() {
    }

    /** Makes one with a message, in constant time. */
    public AbstractMethodError(String message) {
        super(message);
    }
}
