package java.lang;

/** Calls are too deep. {@code fmrun} throws none: it ends the run. */
public class StackOverflowError extends VirtualMachineError {
    /** Makes one without a message, in constant time. */
    public StackOverflowError() {
    }

    /** Makes one with a message, in constant time. */
    public StackOverflowError(String message) {
        super(message);
    }
}
