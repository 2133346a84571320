package java.lang;

/** What a {@code RuntimeException} has besides what is built in: a cause. */
public class RuntimeException extends Exception {
    public RuntimeException() {
    }

    public RuntimeException(String message) {
    }

    /** Makes one with a message and a cause. */
    public RuntimeException(String message, Throwable cause) {
        super(message, cause);
    }

    /** Makes one with a cause, whose text is the message. */
    public RuntimeException(Throwable cause) {
        super(cause);
    }
}
