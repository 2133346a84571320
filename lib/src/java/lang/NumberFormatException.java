package java.lang;

/** A text is no number. */
public class NumberFormatException extends IllegalArgumentException {
    /** Makes one without a message, in constant time. */
    public NumberFormatException() {
    }

    /** Makes one with a message, in constant time. */
    public NumberFormatException(String message) {
        super(message);
    }
}
