package java.util;

/** A specifier of a format has no argument. */
public class MissingFormatArgumentException extends IllegalFormatException {
    /** Makes one with the specifier, in the time of its length. */
    public MissingFormatArgumentException(String specifier) {
        super(joined("Format specifier '", specifier, "'"));
    }
}
