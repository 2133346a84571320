package java.lang;

/** A class has no objects. */
public class InstantiationError extends IncompatibleClassChangeError {
    /** Makes one without a message, in constant time. */
    public InstantiationError() {
    }

    /** Makes one with a message, in constant time. */
    public InstantiationError(String message) {
        super(message);
    }
}
