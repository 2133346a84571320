package java.lang;

/** A class has no objects. */
public class InstantiationException extends ReflectiveOperationException {
    /** Makes one without a message, in constant time. */
    public InstantiationException() {
    }

    /** Makes one with a message, in constant time. */
    public InstantiationException(String message) {
        super(message);
    }
}
