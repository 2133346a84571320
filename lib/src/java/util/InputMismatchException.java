package java.util;

/** What was read is not what was asked for. */
public class InputMismatchException extends NoSuchElementException {
    /** Makes one without a message, in constant time. */
    public InputMismatchException() {
    }

    /** Makes one with a message, in constant time. */
    public InputMismatchException(String message) {
        super(message);
    }
}
