package java.util;

/** A number is no character. */
public class IllegalFormatCodePointException extends IllegalFormatException {
    /** Makes one with the number, in the time of its length. */
    public IllegalFormatCodePointException(int point) {
        super(joined("Code point = 0x", Integer.toHexString(point), ""));
    }
}
