package java.lang;

/** There is no such method. */
public class NoSuchMethodException extends ReflectiveOperationException {
    /** Makes one without a message, in constant time. */
    public NoSuchMethodException() {
    }

    /** Makes one with a message, in constant time. */
    public NoSuchMethodException(String message) {
        super(message);
    }
}
