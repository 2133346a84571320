package java.util;

/** A flag is there twice in a format. */
public class DuplicateFormatFlagsException extends IllegalFormatException {
    /** Makes one with the flag, in the time of its length. */
    public DuplicateFormatFlagsException(String flags) {
        super(joined("Flags = '", flags, "'"));
    }
}
