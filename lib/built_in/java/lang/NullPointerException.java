package java.lang;

/** What is built in of this class, for the compiler only: the bodies do nothing. */
public class NullPointerException extends RuntimeException {
    public NullPointerException() {
    }

    public NullPointerException(String message) {
    }
}
