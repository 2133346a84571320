package java.lang;

/** A class file has another version. */
public class UnsupportedClassVersionError extends ClassFormatError {
    /** Makes one without a message, in constant time. */
    public UnsupportedClassVersionError() {
    }

    /** Makes one with a message, in constant time. */
    public UnsupportedClassVersionError(String message) {
        super(message);
    }
}
