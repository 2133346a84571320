package java.lang;

/**
 * A short as an object, and the texts of shorts.
 *
 * <p>What stays: the boxes of -128 to 127, each made once; and each other box that {@code valueOf} returns, since the same call
 * could have returned one that is kept.
 */
public final class Short extends Number implements Comparable<Short> {
    public static final short MIN_VALUE = -32768;
    public static final short MAX_VALUE = 32767;
    public static final int SIZE = 16;
    public static final int BYTES = 2;

    private final short value;

    /** Makes a box, in constant time. */
    public Short(short value) {
        this.value = value;
    }

    /** Makes a box of a decimal number, in the time of its digits. */
    public Short(String text) {
        value = parseShort(text, 10);
    }

    /** The boxes that are shared. */
    static final class Cache {
        private static final Short[] BOXES = new Short[256];

        Cache() {
        }

        static Short box(short value) {
            Short box = BOXES[value + 128];
            if (box == null) {
                box = new Short(value);
                BOXES[value + 128] = box;
            }
            return box;
        }
    }

    /** Returns a box, always the same one for -128 to 127, in constant time. */
    public static Short valueOf(short value) {
        return -128 <= value && value <= 127 ? Cache.box(value) : new Short(value);
    }

    /** Returns a box of a decimal number, in the time of its digits. */
    public static Short valueOf(String text) {
        return valueOf(parseShort(text, 10));
    }

    /** Returns a box of a number in a radix, in the time of its digits. */
    public static Short valueOf(String text, int radix) {
        return valueOf(parseShort(text, radix));
    }

    /** Reads a decimal number, in the time of its digits, or throws NumberFormatException. */
    public static short parseShort(String text) {
        return parseShort(text, 10);
    }

    /** Reads a number in a radix from 2 to 36, in the time of its digits, or throws NumberFormatException. */
    public static short parseShort(String text, int radix) {
        int value = Integer.parseInt(text, radix);
        if (value < MIN_VALUE || value > MAX_VALUE) {
            StringBuilder message = new StringBuilder().append("Value out of range. Value:\"").append(text);
            throw new NumberFormatException(message.append("\" Radix:").append(radix).toString());
        }
        return (short) value;
    }

    /** Reads a number that is decimal, or after {@code 0x}, {@code #} or {@code 0} hexadecimal or octal, in the time of its digits. */
    public static Short decode(String text) {
        int value = (int) Digits.decode(text, Integer.MIN_VALUE, Integer.MAX_VALUE);
        if (value < MIN_VALUE || value > MAX_VALUE) {
            StringBuilder message = new StringBuilder().append("Value ").append(value);
            throw new NumberFormatException(message.append(" out of range from input ").append(text).toString());
        }
        return valueOf((short) value);
    }

    /** Returns the lowest 8 bits, in constant time. */
    public byte byteValue() {
        return (byte) value;
    }

    /** Returns the lowest 16 bits, in constant time. */
    public short shortValue() {
        return (short) value;
    }

    /** Returns the number, in constant time. */
    public int intValue() {
        return value;
    }

    /** Returns the number, in constant time. */
    public long longValue() {
        return value;
    }

    /** Returns the number in decimal, in constant time. */
    public String toString() {
        return String.valueOf((int) value);
    }

    /** Returns a number in decimal, in constant time. */
    public static String toString(short value) {
        return String.valueOf((int) value);
    }

    /** Returns the number itself, in constant time. */
    public int hashCode() {
        return value;
    }

    /** Returns the number itself, in constant time. */
    public static int hashCode(short value) {
        return value;
    }

    /** Reports whether the other object is a Short of the same number, in constant time. */
    public boolean equals(Object other) {
        return other instanceof Short && ((Short) other).value == value;
    }

    /** Returns the difference of the numbers, in constant time. */
    public int compareTo(Short other) {
        return value - other.value;
    }

    /** Returns the difference of the numbers, in constant time. */
    public static int compare(short one, short other) {
        return one - other;
    }

    /** Returns the number without its sign, in constant time. */
    public static int toUnsignedInt(short value) {
        return value & 0xffff;
    }

    /** Returns the number without its sign, in constant time. */
    public static long toUnsignedLong(short value) {
        return value & 0xffffL;
    }

    /** Returns the bytes in the opposite order, in constant time. */
    public static short reverseBytes(short value) {
        return (short) (value << 8 | (value & 0xff00) >>> 8);
    }
}
