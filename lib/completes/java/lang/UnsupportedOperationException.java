package java.lang;

/** What an {@code UnsupportedOperationException} has besides what is built in: a cause. */
public class UnsupportedOperationException extends RuntimeException {
    public UnsupportedOperationException() {
    }

    public UnsupportedOperationException(String message) {
    }

    /** Makes one with a message and a cause. */
    public UnsupportedOperationException(String message, Throwable cause) {
        super(message, cause);
    }

    /** Makes one with a cause, whose text is the message. */
    public UnsupportedOperationException(Throwable cause) {
        super(cause);
    }
}
