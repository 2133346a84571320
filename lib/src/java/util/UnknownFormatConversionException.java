package java.util;

/** A specifier of a format has no conversion, or an unknown one. */
public class UnknownFormatConversionException extends IllegalFormatException {
    /** Makes one with the conversion, in the time of its length. */
    public UnknownFormatConversionException(String conversion) {
        super(joined("Conversion = '", conversion, "'"));
    }
}
