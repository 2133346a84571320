package java.lang;

/** What is built in of this class, for the compiler only: the bodies do nothing. */
public class IncompatibleClassChangeError extends LinkageError {
    public IncompatibleClassChangeError() {
    }

    public IncompatibleClassChangeError(String message) {
    }
}
