package java.io;

/** There is no such charset. */
public class UnsupportedEncodingException extends IOException {
    /** Makes one without a message, in constant time. */
    public UnsupportedEncodingException() {
    }

    /** Makes one with a message, in constant time. */
    public UnsupportedEncodingException(String message) {
        super(message);
    }
}
