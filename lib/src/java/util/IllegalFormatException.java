package java.util;

/** A format or one of its arguments is not what a format takes. */
public class IllegalFormatException extends IllegalArgumentException {
    IllegalFormatException(String message) {
        super(message);
    }

    /** The parts of a message, one behind the other; of a char its number is given. */
    static String joined(String first, String second, String third) {
        return new StringBuilder().append(first).append(second).append(third).toString();
    }
}
