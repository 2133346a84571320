package java.lang;

/** What is built in of this class, for the compiler only: the bodies do nothing. */
public class ArrayIndexOutOfBoundsException extends IndexOutOfBoundsException {
    public ArrayIndexOutOfBoundsException() {
    }

    public ArrayIndexOutOfBoundsException(String message) {
    }
}
