package java.io;

/** What an {@code IOException} has besides what is built in: a cause. */
public class IOException extends Exception {
    public IOException() {
    }

    public IOException(String message) {
    }

    /** Makes one with a message and a cause. */
    public IOException(String message, Throwable cause) {
        super(message, cause);
    }

    /** Makes one with a cause, whose text is the message. */
    public IOException(Throwable cause) {
        super(cause);
    }
}
