package java.lang;

import java.io.Serializable;

/**
 * A boolean as an object.
 *
 * <p>What stays: the two boxes that {@code valueOf} returns.
 */
public final class Boolean implements Serializable, Comparable<Boolean> {
    /** The box of true. */
    public static final Boolean TRUE = new Boolean(true);
    /** The box of false. */
    public static final Boolean FALSE = new Boolean(false);

    private final boolean value;

    /** Makes a box, in constant time. */
    public Boolean(boolean value) {
        this.value = value;
    }

    /** Makes a box of a text, in constant time. */
    public Boolean(String text) {
        value = parseBoolean(text);
    }

    /** Returns one of the two boxes, in constant time. */
    public static Boolean valueOf(boolean value) {
        return value ? TRUE : FALSE;
    }

    /** Returns one of the two boxes, in constant time. */
    public static Boolean valueOf(String text) {
        return valueOf(parseBoolean(text));
    }

    /** Reports whether the text is {@code true} in letters of any case, in constant time. */
    public static boolean parseBoolean(String text) {
        if (text == null || text.length() != 4) {
            return false;
        }
        for (int index = 0; index < 4; index++) {
            if (Character.toLowerCase(text.charAt(index)) != "true".charAt(index)) {
                return false;
            }
        }
        return true;
    }

    /** Returns the value, in constant time. */
    public boolean booleanValue() {
        return value;
    }

    /** Returns {@code true} or {@code false}, in constant time. */
    public String toString() {
        return toString(value);
    }

    /** Returns {@code true} or {@code false}, in constant time. */
    public static String toString(boolean value) {
        return value ? "true" : "false";
    }

    /** Returns 1231 or 1237, in constant time. */
    public int hashCode() {
        return hashCode(value);
    }

    /** Returns 1231 or 1237, in constant time. */
    public static int hashCode(boolean value) {
        return value ? 1231 : 1237;
    }

    /** Reports whether the other object is a Boolean of the same value, in constant time. */
    public boolean equals(Object other) {
        return other instanceof Boolean && ((Boolean) other).value == value;
    }

    /** Compares two boxes, false before true, in constant time. */
    public int compareTo(Boolean other) {
        return compare(value, other.value);
    }

    /** Compares two values, false before true, in constant time. */
    public static int compare(boolean one, boolean other) {
        return one == other ? 0 : one ? 1 : -1;
    }

    /** Reports whether both are true, in constant time. */
    public static boolean logicalAnd(boolean one, boolean other) {
        return one & other;
    }

    /** Reports whether one is true, in constant time. */
    public static boolean logicalOr(boolean one, boolean other) {
        return one | other;
    }

    /** Reports whether just one is true, in constant time. */
    public static boolean logicalXor(boolean one, boolean other) {
        return one ^ other;
    }
}
