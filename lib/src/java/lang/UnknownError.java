package java.lang;

/** The machine failed without a known cause. */
public class UnknownError extends VirtualMachineError {
    /** Makes one without a message, in constant time. */
    public UnknownError() {
    }

    /** Makes one with a message, in constant time. */
    public UnknownError(String message) {
        super(message);
    }
}
