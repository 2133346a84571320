package java.lang;

/** A class is above itself. */
public class ClassCircularityError extends LinkageError {
    /** Makes one without a message, in constant time. */
    public ClassCircularityError() {
    }

    /** Makes one with a message, in constant time. */
    public ClassCircularityError(String message) {
        super(message);
    }
}
