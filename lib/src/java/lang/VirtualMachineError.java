package java.lang;

/** The machine is broken or has no room. */
public abstract class VirtualMachineError extends Error {
    /** Makes one without a message, in constant time. */
    public VirtualMachineError() {
    }

    /** Makes one with a message, in constant time. */
    public VirtualMachineError(String message) {
        super(message);
    }
}
