package java.lang;

/** What is built in of this class, for the compiler only: the bodies do nothing. */
public class IndexOutOfBoundsException extends RuntimeException {
    public IndexOutOfBoundsException() {
    }

    public IndexOutOfBoundsException(String message) {
    }
}
