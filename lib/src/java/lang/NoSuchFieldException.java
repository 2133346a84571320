package java.lang;

/** There is no such field. */
public class NoSuchFieldException extends ReflectiveOperationException {
    /** Makes one without a message, in constant time. */
    public NoSuchFieldException() {
    }

    /** Makes one with a message, in constant time. */
    public NoSuchFieldException(String message) {
        super(message);
    }
}
