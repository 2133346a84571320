package java.lang;

/** A method is not typed. */
public class VerifyError extends LinkageError {
    /** Makes one without a message, in constant time. */
    public VerifyError() {
    }

    /** Makes one with a message, in constant time. */
    public VerifyError(String message) {
        super(message);
    }
}
