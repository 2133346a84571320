package java.lang;

/** A monitor is not held. */
public class IllegalMonitorStateException extends RuntimeException {
    /** Makes one without a message, in constant time. */
    public IllegalMonitorStateException() {
    }

    /** Makes one with a message, in constant time. */
    public IllegalMonitorStateException(String message) {
        super(message);
    }
}
