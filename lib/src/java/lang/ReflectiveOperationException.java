package java.lang;

/** Something that is looked for by its name failed. */
public class ReflectiveOperationException extends Exception {
    /** Makes one without a message, in constant time. */
    public ReflectiveOperationException() {
    }

    /** Makes one with a message, in constant time. */
    public ReflectiveOperationException(String message) {
        super(message);
    }
}
