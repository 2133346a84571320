package java.lang;

/** What an {@code IllegalStateException} has besides what is built in: a cause. */
public class IllegalStateException extends RuntimeException {
    public IllegalStateException() {
    }

    public IllegalStateException(String message) {
    }

    /** Makes one with a message and a cause. */
    public IllegalStateException(String message, Throwable cause) {
        super(message, cause);
    }

    /** Makes one with a cause, whose text is the message. */
    public IllegalStateException(Throwable cause) {
        super(cause);
    }
}
