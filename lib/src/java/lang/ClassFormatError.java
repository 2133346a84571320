package java.lang;

/** A class file is malformed. */
public class ClassFormatError extends LinkageError {
    /** Makes one without a message, in constant time. */
    public ClassFormatError() {
    }

    /** Makes one with a message, in constant time. */
    public ClassFormatError(String message) {
        super(message);
    }
}
