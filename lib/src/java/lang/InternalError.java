package java.lang;

/** The machine is broken. */
public class InternalError extends VirtualMachineError {
    /** Makes one without a message, in constant time. */
    public InternalError() {
    }

    /** Makes one with a message, in constant time. */
    public InternalError(String message) {
        super(message);
    }
}
