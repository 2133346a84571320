package java.lang;

/** Something that has to be so isn't. */
public class AssertionError extends Error {
    /** Makes one without a message, in constant time. */
    public AssertionError() {
    }

    /** Makes one whose message is an object's text, in the time of its {@code toString}. */
    public AssertionError(Object message) {
        super(message == null ? "null" : message.toString());
    }

    /** Makes one with a message, in constant time. */
    public AssertionError(boolean message) {
        super(String.valueOf(message));
    }

    /** Makes one with a message, in constant time. */
    public AssertionError(char message) {
        super(String.valueOf(message));
    }

    /** Makes one with a message, in constant time. */
    public AssertionError(int message) {
        super(String.valueOf(message));
    }

    /** Makes one with a message, in constant time. */
    public AssertionError(long message) {
        super(String.valueOf(message));
    }
}
