package java.io;

/** The input ended early. */
public class EOFException extends IOException {
    /** Makes one without a message, in constant time. */
    public EOFException() {
    }

    /** Makes one with a message, in constant time. */
    public EOFException(String message) {
        super(message);
    }
}
