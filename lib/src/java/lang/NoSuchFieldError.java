package java.lang;

/** A field is missing. */
public class NoSuchFieldError extends IncompatibleClassChangeError {
    /** Makes one without a message, in constant time. */
    public NoSuchFieldError() {
    }

    /** Makes one with a message, in constant time. */
    public NoSuchFieldError(String message) {
        super(message);
    }
}
