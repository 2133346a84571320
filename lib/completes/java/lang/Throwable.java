package java.lang;

/** What each throwable has besides what is built in. Causes are kept by exceptions and errors. */
public class Throwable implements java.io.Serializable {
    public Throwable() {
    }

    public Throwable(String message) {
    }

    public native String getMessage();

    public native String toString();

    /** Returns the message. */
    public String getLocalizedMessage() {
        return getMessage();
    }

    /** Returns what caused this, or null. */
    public Throwable getCause() {
        return null;
    }

    /** Says what caused this. */
    public Throwable initCause(Throwable cause) {
        throw new IllegalStateException();
    }

    /** Says what was thrown while this was on its way: only that it is none is looked at, since nothing returns it. */
    public final void addSuppressed(Throwable other) {
        if (other == null) {
            throw new NullPointerException();
        }
        if (other == this) {
            throw new IllegalArgumentException();
        }
    }

    /** Does nothing: Java prints it to the standard error, which a program has not. */
    public void printStackTrace() {
    }

    /** Returns this: there are no stack traces. */
    public Throwable fillInStackTrace() {
        return this;
    }
}
