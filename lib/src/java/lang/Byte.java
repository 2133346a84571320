package java.lang;

/**
 * A byte as an object, and the texts of bytes.
 *
 * <p>What stays: the boxes, each made once.
 */
public final class Byte extends Number implements Comparable<Byte> {
    public static final byte MIN_VALUE = -128;
    public static final byte MAX_VALUE = 127;
    public static final int SIZE = 8;
    public static final int BYTES = 1;

    private final byte value;

    /** Makes a box, in constant time. */
    public Byte(byte value) {
        this.value = value;
    }

    /** Makes a box of a decimal number, in the time of its digits. */
    public Byte(String text) {
        value = parseByte(text, 10);
    }

    /** The boxes that are shared. */
    static final class Cache {
        private static final Byte[] BOXES = new Byte[256];

        Cache() {
        }

        static Byte box(byte value) {
            Byte box = BOXES[value + 128];
            if (box == null) {
                box = new Byte(value);
                BOXES[value + 128] = box;
            }
            return box;
        }
    }

    /** Returns a box, always the same one for each number, in constant time. */
    public static Byte valueOf(byte value) {
        return Cache.box(value);
    }

    /** Returns a box of a decimal number, in the time of its digits. */
    public static Byte valueOf(String text) {
        return valueOf(parseByte(text, 10));
    }

    /** Returns a box of a number in a radix, in the time of its digits. */
    public static Byte valueOf(String text, int radix) {
        return valueOf(parseByte(text, radix));
    }

    /** Reads a decimal number, in the time of its digits, or throws NumberFormatException. */
    public static byte parseByte(String text) {
        return parseByte(text, 10);
    }

    /** Reads a number in a radix from 2 to 36, in the time of its digits, or throws NumberFormatException. */
    public static byte parseByte(String text, int radix) {
        int value = Integer.parseInt(text, radix);
        if (value < MIN_VALUE || value > MAX_VALUE) {
            StringBuilder message = new StringBuilder().append("Value out of range. Value:\"").append(text);
            throw new NumberFormatException(message.append("\" Radix:").append(radix).toString());
        }
        return (byte) value;
    }

    /** Reads a number that is decimal, or after {@code 0x}, {@code #} or {@code 0} hexadecimal or octal, in the time of its digits. */
    public static Byte decode(String text) {
        int value = (int) Digits.decode(text, Integer.MIN_VALUE, Integer.MAX_VALUE);
        if (value < MIN_VALUE || value > MAX_VALUE) {
            StringBuilder message = new StringBuilder().append("Value ").append(value);
            throw new NumberFormatException(message.append(" out of range from input ").append(text).toString());
        }
        return valueOf((byte) value);
    }

    /** Returns the lowest 8 bits, in constant time. */
    public byte byteValue() {
        return (byte) value;
    }

    /** Returns the lowest 16 bits, in constant time. */
    public short shortValue() {
        return (short) value;
    }

    /** Returns the number, in constant time. */
    public int intValue() {
        return value;
    }

    /** Returns the number, in constant time. */
    public long longValue() {
        return value;
    }

    /** Returns the number in decimal, in constant time. */
    public String toString() {
        return String.valueOf((int) value);
    }

    /** Returns a number in decimal, in constant time. */
    public static String toString(byte value) {
        return String.valueOf((int) value);
    }

    /** Returns the number itself, in constant time. */
    public int hashCode() {
        return value;
    }

    /** Returns the number itself, in constant time. */
    public static int hashCode(byte value) {
        return value;
    }

    /** Reports whether the other object is a Byte of the same number, in constant time. */
    public boolean equals(Object other) {
        return other instanceof Byte && ((Byte) other).value == value;
    }

    /** Returns the difference of the numbers, in constant time. */
    public int compareTo(Byte other) {
        return value - other.value;
    }

    /** Returns the difference of the numbers, in constant time. */
    public static int compare(byte one, byte other) {
        return one - other;
    }

    /** Returns the number without its sign, in constant time. */
    public static int toUnsignedInt(byte value) {
        return value & 0xff;
    }

    /** Returns the number without its sign, in constant time. */
    public static long toUnsignedLong(byte value) {
        return value & 0xffL;
    }
}
