package java.lang;

/** What is built in of this class, for the compiler only: the bodies do nothing. */
public class StringIndexOutOfBoundsException extends IndexOutOfBoundsException {
    public StringIndexOutOfBoundsException() {
    }

    public StringIndexOutOfBoundsException(String message) {
    }
}
