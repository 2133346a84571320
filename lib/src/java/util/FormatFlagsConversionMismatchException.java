package java.util;

/** A conversion doesn't take a flag. */
public class FormatFlagsConversionMismatchException extends IllegalFormatException {
    /** Makes one with the flag and the conversion, in the time of its length. */
    public FormatFlagsConversionMismatchException(String flags, char conversion) {
        super(joined(joined("Conversion = ", String.valueOf(conversion), ""), ", Flags = ", flags));
    }
}
