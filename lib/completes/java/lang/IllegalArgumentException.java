package java.lang;

/** What an {@code IllegalArgumentException} has besides what is built in: a cause. */
public class IllegalArgumentException extends RuntimeException {
    public IllegalArgumentException() {
    }

    public IllegalArgumentException(String message) {
    }

    /** Makes one with a message and a cause. */
    public IllegalArgumentException(String message, Throwable cause) {
        super(message, cause);
    }

    /** Makes one with a cause, whose text is the message. */
    public IllegalArgumentException(Throwable cause) {
        super(cause);
    }
}
