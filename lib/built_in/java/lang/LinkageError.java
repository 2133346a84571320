package java.lang;

/** What is built in of this class, for the compiler only: the bodies do nothing. */
public class LinkageError extends Error {
    public LinkageError() {
    }

    public LinkageError(String message) {
    }
}
