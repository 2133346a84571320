package java.lang;

/** What is built in of this class, for the compiler only: the bodies do nothing. */
public class ArithmeticException extends RuntimeException {
    public ArithmeticException() {
    }

    public ArithmeticException(String message) {
    }
}
