package java.util;

/** Flags don't go together. */
public class IllegalFormatFlagsException extends IllegalFormatException {
    /** Makes one with the flags, in the time of its length. */
    public IllegalFormatFlagsException(String flags) {
        super(joined("Flags = '", flags, "'"));
    }
}
