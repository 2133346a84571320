package java.io;

/** There is no such file. */
public class FileNotFoundException extends IOException {
    /** Makes one without a message, in constant time. */
    public FileNotFoundException() {
    }

    /** Makes one with a message, in constant time. */
    public FileNotFoundException(String message) {
        super(message);
    }
}
