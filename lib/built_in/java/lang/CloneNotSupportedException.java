package java.lang;

/** What is built in of this class, for the compiler only: the bodies do nothing. */
public class CloneNotSupportedException extends Exception {
    public CloneNotSupportedException() {
    }

    public CloneNotSupportedException(String message) {
    }
}
