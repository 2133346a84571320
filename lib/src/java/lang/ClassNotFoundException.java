package java.lang;

/** There is no such class. */
public class ClassNotFoundException extends ReflectiveOperationException {
    /** Makes one without a message, in constant time. */
    public ClassNotFoundException() {
    }

    /** Makes one with a message, in constant time. */
    public ClassNotFoundException(String message) {
        super(message);
    }
}
