package java.lang;

/** There is no memory. {@code fmrun} throws none: it ends the run. */
public class OutOfMemoryError extends VirtualMachineError {
    /** Makes one without a message, in constant time. */
    public OutOfMemoryError() {
    }

    /** Makes one with a message, in constant time. */
    public OutOfMemoryError(String message) {
        super(message);
    }
}
