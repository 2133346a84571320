package java.util;

/** A conversion takes no width, or it is too large. */
public class IllegalFormatWidthException extends IllegalFormatException {
    /** Makes one with the width, in the time of its length. */
    public IllegalFormatWidthException(int width) {
        super(Integer.toString(width));
    }
}
