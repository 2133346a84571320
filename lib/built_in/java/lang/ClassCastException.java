package java.lang;

/** What is built in of this class, for the compiler only: the bodies do nothing. */
public class ClassCastException extends RuntimeException {
    public ClassCastException() {
    }

    public ClassCastException(String message) {
    }
}
