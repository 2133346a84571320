package java.lang;

/**
 * A long as an object, and the texts of longs.
 *
 * <p>What stays: the boxes of -128 to 127, each made once; and each other box that {@code valueOf} returns, since the same call
 * could have returned one that is kept. A box made by {@code new} is freed like every object.
 */
public final class Long extends Number implements Comparable<Long> {
    public static final long MIN_VALUE = 0x8000000000000000L;
    public static final long MAX_VALUE = 0x7fffffffffffffffL;
    public static final int SIZE = 64;
    public static final int BYTES = 8;

    private final long value;

    /** Makes a box, in constant time. */
    public Long(long value) {
        this.value = value;
    }

    /** Makes a box of a decimal number, in the time of its digits. */
    public Long(String text) {
        value = parseLong(text, 10);
    }

    /** The boxes that are shared. */
    static final class Cache {
        private static final Long[] BOXES = new Long[256];

        Cache() {
        }

        static Long box(int value) {
            Long box = BOXES[value + 128];
            if (box == null) {
                box = new Long(value);
                BOXES[value + 128] = box;
            }
            return box;
        }
    }

    /** Returns a box, always the same one for -128 to 127, in constant time. */
    public static Long valueOf(long value) {
        return -128 <= value && value <= 127 ? Cache.box((int) value) : new Long(value);
    }

    /** Returns a box of a decimal number, in the time of its digits. */
    public static Long valueOf(String text) {
        return valueOf(parseLong(text, 10));
    }

    /** Returns a box of a number in a radix, in the time of its digits. */
    public static Long valueOf(String text, int radix) {
        return valueOf(parseLong(text, radix));
    }

    /** Reads a decimal number, in the time of its digits, or throws NumberFormatException. */
    public static long parseLong(String text) {
        return parseLong(text, 10);
    }

    /** Reads a number in a radix from 2 to 36, in the time of its digits, or throws NumberFormatException. */
    public static long parseLong(String text, int radix) {
        return Digits.parse(text, radix, MIN_VALUE, MAX_VALUE);
    }

    /** Reads a number that is decimal, or after {@code 0x}, {@code #} or {@code 0} hexadecimal or octal, in the time of its digits. */
    public static Long decode(String text) {
        return valueOf(Digits.decode(text, MIN_VALUE, MAX_VALUE));
    }

    /** Returns the lowest 8 bits, in constant time. */
    public byte byteValue() {
        return (byte) value;
    }

    /** Returns the lowest 16 bits, in constant time. */
    public short shortValue() {
        return (short) value;
    }

    /** Returns the number or its lowest 32 bits, in constant time. */
    public int intValue() {
        return (int) value;
    }

    /** Returns the number, in constant time. */
    public long longValue() {
        return value;
    }

    /** Returns the number in decimal, in constant time. */
    public String toString() {
        return String.valueOf(value);
    }

    /** Returns a number in decimal, in constant time. */
    public static String toString(long value) {
        return String.valueOf(value);
    }

    /** Returns a number in a radix, or in decimal where it isn't 2 to 36, in the time of its digits. */
    public static String toString(long value, int radix) {
        return Digits.toText(value, radix);
    }

    /** Returns the bits in hexadecimal, in the time of the digits. */
    public static String toHexString(long value) {
        return Digits.toBits(value, 4);
    }

    /** Returns the bits in octal, in the time of the digits. */
    public static String toOctalString(long value) {
        return Digits.toBits(value, 3);
    }

    /** Returns the bits, in the time of their number. */
    public static String toBinaryString(long value) {
        return Digits.toBits(value, 1);
    }

    /** Returns both halves combined by exclusive or, in constant time. */
    public int hashCode() {
        return hashCode(value);
    }

    /** Returns both halves combined by exclusive or, in constant time. */
    public static int hashCode(long value) {
        return (int) (value ^ value >>> 32);
    }

    /** Reports whether the other object is a Long of the same number, in constant time. */
    public boolean equals(Object other) {
        return other instanceof Long && ((Long) other).value == value;
    }

    /** Compares two boxes by their numbers, in constant time. */
    public int compareTo(Long other) {
        return compare(value, other.value);
    }

    /** Compares two numbers: -1, 0 or 1, in constant time. */
    public static int compare(long one, long other) {
        return one < other ? -1 : one == other ? 0 : 1;
    }

    /** Compares two numbers without their signs: -1, 0 or 1, in constant time. */
    public static int compareUnsigned(long one, long other) {
        return compare(one + MIN_VALUE, other + MIN_VALUE);
    }

    /** Returns the sign: -1, 0 or 1, in constant time. */
    public static int signum(long value) {
        return (int) (value >> 63 | -value >>> 63);
    }

    /** Adds two numbers, in constant time. */
    public static long sum(long one, long other) {
        return one + other;
    }

    /** Returns the greater number, in constant time. */
    public static long max(long one, long other) {
        return Math.max(one, other);
    }

    /** Returns the lesser number, in constant time. */
    public static long min(long one, long other) {
        return Math.min(one, other);
    }

    /** Returns how many bits are 1, in constant time. */
    public static int bitCount(long value) {
        return Integer.bitCount((int) value) + Integer.bitCount((int) (value >>> 32));
    }

    /** Returns how many 0 are above the highest 1, in constant time. */
    public static int numberOfLeadingZeros(long value) {
        int high = (int) (value >>> 32);
        return high == 0 ? 32 + Integer.numberOfLeadingZeros((int) value) : Integer.numberOfLeadingZeros(high);
    }

    /** Returns how many 0 are below the lowest 1, in constant time. */
    public static int numberOfTrailingZeros(long value) {
        int low = (int) value;
        return low == 0 ? 32 + Integer.numberOfTrailingZeros((int) (value >>> 32)) : Integer.numberOfTrailingZeros(low);
    }

    /** Returns the highest 1 by itself, in constant time. */
    public static long highestOneBit(long value) {
        return value & MIN_VALUE >>> numberOfLeadingZeros(value);
    }

    /** Returns the lowest 1 by itself, in constant time. */
    public static long lowestOneBit(long value) {
        return value & -value;
    }

    /** Turns the bits to the left, in constant time. */
    public static long rotateLeft(long value, int distance) {
        return value << distance | value >>> -distance;
    }

    /** Turns the bits to the right, in constant time. */
    public static long rotateRight(long value, int distance) {
        return value >>> distance | value << -distance;
    }

    /** Reverses the bits, in constant time. */
    public static long reverse(long value) {
        return (long) Integer.reverse((int) value) << 32 | Integer.reverse((int) (value >>> 32)) & 0xffffffffL;
    }

    /** Reverses the bytes, in constant time. */
    public static long reverseBytes(long value) {
        return (long) Integer.reverseBytes((int) value) << 32 | Integer.reverseBytes((int) (value >>> 32)) & 0xffffffffL;
    }
}
