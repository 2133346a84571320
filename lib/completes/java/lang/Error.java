package java.lang;

/** What an {@code Error} has besides what is built in: a cause. */
public class Error extends Throwable {
    private Throwable cause;

    public Error() {
    }

    public Error(String message) {
    }

    /** Makes one with a message and a cause. */
    public Error(String message, Throwable cause) {
        super(message);
        this.cause = cause;
    }

    /** Makes one with a cause, whose text is the message. */
    public Error(Throwable cause) {
        super(cause == null ? null : cause.toString());
        this.cause = cause;
    }

    /** Returns what caused this, or null. */
    public Throwable getCause() {
        return cause;
    }

    /** Says what caused this, where nothing did so far. */
    public Throwable initCause(Throwable cause) {
        if (this.cause != null) {
            throw new IllegalStateException();
        }
        this.cause = cause;
        return this;
    }
}
