package java.util;

/** A stack has no element. */
public class EmptyStackException extends RuntimeException {
    /** Makes one without a message, in constant time. */
    public EmptyStackException() {
    }
}
