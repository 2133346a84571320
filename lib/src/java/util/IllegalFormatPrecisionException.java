package java.util;

/** A conversion takes no precision. */
public class IllegalFormatPrecisionException extends IllegalFormatException {
    /** Makes one with the precision, in the time of its length. */
    public IllegalFormatPrecisionException(int precision) {
        super(Integer.toString(precision));
    }
}
