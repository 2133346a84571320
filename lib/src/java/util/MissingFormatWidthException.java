package java.util;

/** A flag wants a width. */
public class MissingFormatWidthException extends IllegalFormatException {
    /** Makes one with the specifier, in the time of its length. */
    public MissingFormatWidthException(String specifier) {
        super(specifier);
    }
}
