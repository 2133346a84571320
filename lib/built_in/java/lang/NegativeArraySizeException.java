package java.lang;

/** What is built in of this class, for the compiler only: the bodies do nothing. */
public class NegativeArraySizeException extends RuntimeException {
    public NegativeArraySizeException() {
    }

    public NegativeArraySizeException(String message) {
    }
}
