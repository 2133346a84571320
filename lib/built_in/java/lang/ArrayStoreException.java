package java.lang;

/** What is built in of this class, for the compiler only: the bodies do nothing. */
public class ArrayStoreException extends RuntimeException {
    public ArrayStoreException() {
    }

    public ArrayStoreException(String message) {
    }
}
