package java.lang;

/** A member is not accessible. */
public class IllegalAccessException extends ReflectiveOperationException {
    /** Makes one without a message, in constant time. */
    public IllegalAccessException() {
    }

    /** Makes one with a message, in constant time. */
    public IllegalAccessException(String message) {
        super(message);
    }
}
