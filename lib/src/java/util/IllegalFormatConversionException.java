package java.util;

/** A conversion doesn't take an object of a class. */
public class IllegalFormatConversionException extends IllegalFormatException {
    /** Makes one with the conversion and the name of the class, in the time of its length. */
    public IllegalFormatConversionException(char conversion, String name) {
        super(joined(String.valueOf(conversion), " != ", name));
    }
}
