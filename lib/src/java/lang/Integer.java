package java.lang;

/**
 * An int as an object, and the texts of ints.
 *
 * <p>What stays: the boxes of -128 to 127, each made once; and each other box that {@code valueOf} returns, since the same call
 * could have returned one that is kept. A box made by {@code new} is freed like every object.
 */
public final class Integer extends Number implements Comparable<Integer> {
    public static final int MIN_VALUE = 0x80000000;
    public static final int MAX_VALUE = 0x7fffffff;
    public static final int SIZE = 32;
    public static final int BYTES = 4;

    private final int value;

    /** Makes a box, in constant time. */
    public Integer(int value) {
        this.value = value;
    }

    /** Makes a box of a decimal number, in the time of its digits. */
    public Integer(String text) {
        value = parseInt(text, 10);
    }

    /** The boxes that are shared. */
    static final class Cache {
        private static final Integer[] BOXES = new Integer[256];

        Cache() {
        }

        static Integer box(int value) {
            Integer box = BOXES[value + 128];
            if (box == null) {
                box = new Integer(value);
                BOXES[value + 128] = box;
            }
            return box;
        }
    }

    /** Returns a box, always the same one for -128 to 127, in constant time. */
    public static Integer valueOf(int value) {
        return -128 <= value && value <= 127 ? Cache.box(value) : new Integer(value);
    }

    /** Returns a box of a decimal number, in the time of its digits. */
    public static Integer valueOf(String text) {
        return valueOf(parseInt(text, 10));
    }

    /** Returns a box of a number in a radix, in the time of its digits. */
    public static Integer valueOf(String text, int radix) {
        return valueOf(parseInt(text, radix));
    }

    /** Reads a decimal number, in the time of its digits, or throws NumberFormatException. */
    public static int parseInt(String text) {
        return parseInt(text, 10);
    }

    /** Reads a number in a radix from 2 to 36, in the time of its digits, or throws NumberFormatException. */
    public static int parseInt(String text, int radix) {
        return (int) Digits.parse(text, radix, MIN_VALUE, MAX_VALUE);
    }

    /** Reads a number that is decimal, or after {@code 0x}, {@code #} or {@code 0} hexadecimal or octal, in the time of its digits. */
    public static Integer decode(String text) {
        return valueOf((int) Digits.decode(text, MIN_VALUE, MAX_VALUE));
    }

    /** Returns the lowest 8 bits, in constant time. */
    public byte byteValue() {
        return (byte) value;
    }

    /** Returns the lowest 16 bits, in constant time. */
    public short shortValue() {
        return (short) value;
    }

    /** Returns the number, in constant time. */
    public int intValue() {
        return value;
    }

    /** Returns the number, in constant time. */
    public long longValue() {
        return value;
    }

    /** Returns the number in decimal, in constant time. */
    public String toString() {
        return String.valueOf(value);
    }

    /** Returns a number in decimal, in constant time. */
    public static String toString(int value) {
        return String.valueOf(value);
    }

    /** Returns a number in a radix, or in decimal where it isn't 2 to 36, in the time of its digits. */
    public static String toString(int value, int radix) {
        return Digits.toText(value, radix);
    }

    /** Returns the bits in hexadecimal, in the time of the digits. */
    public static String toHexString(int value) {
        return Digits.toBits(value & 0xffffffffL, 4);
    }

    /** Returns the bits in octal, in the time of the digits. */
    public static String toOctalString(int value) {
        return Digits.toBits(value & 0xffffffffL, 3);
    }

    /** Returns the bits, in the time of their number. */
    public static String toBinaryString(int value) {
        return Digits.toBits(value & 0xffffffffL, 1);
    }

    /** Returns the number itself, in constant time. */
    public int hashCode() {
        return value;
    }

    /** Returns the number itself, in constant time. */
    public static int hashCode(int value) {
        return value;
    }

    /** Reports whether the other object is an Integer of the same number, in constant time. */
    public boolean equals(Object other) {
        return other instanceof Integer && ((Integer) other).value == value;
    }

    /** Compares two boxes by their numbers, in constant time. */
    public int compareTo(Integer other) {
        return compare(value, other.value);
    }

    /** Compares two numbers: -1, 0 or 1, in constant time. */
    public static int compare(int one, int other) {
        return one < other ? -1 : one == other ? 0 : 1;
    }

    /** Compares two numbers without their signs: -1, 0 or 1, in constant time. */
    public static int compareUnsigned(int one, int other) {
        return compare(one + MIN_VALUE, other + MIN_VALUE);
    }

    /** Returns the number without its sign as a long, in constant time. */
    public static long toUnsignedLong(int value) {
        return value & 0xffffffffL;
    }

    /** Returns the number without its sign in decimal, in constant time. */
    public static String toUnsignedString(int value) {
        return String.valueOf(value & 0xffffffffL);
    }

    /** Divides numbers without signs, in constant time. */
    public static int divideUnsigned(int dividend, int divisor) {
        return (int) ((dividend & 0xffffffffL) / (divisor & 0xffffffffL));
    }

    /** Returns the remainder of numbers without signs, in constant time. */
    public static int remainderUnsigned(int dividend, int divisor) {
        return (int) ((dividend & 0xffffffffL) % (divisor & 0xffffffffL));
    }

    /** Returns the sign: -1, 0 or 1, in constant time. */
    public static int signum(int value) {
        return value >> 31 | -value >>> 31;
    }

    /** Adds two numbers, in constant time. */
    public static int sum(int one, int other) {
        return one + other;
    }

    /** Returns the greater number, in constant time. */
    public static int max(int one, int other) {
        return Math.max(one, other);
    }

    /** Returns the lesser number, in constant time. */
    public static int min(int one, int other) {
        return Math.min(one, other);
    }

    /** Returns how many bits are 1, in constant time. */
    public static int bitCount(int value) {
        value -= value >>> 1 & 0x55555555;
        value = (value & 0x33333333) + (value >>> 2 & 0x33333333);
        value = value + (value >>> 4) & 0x0f0f0f0f;
        return value * 0x01010101 >>> 24;
    }

    /** Returns how many 0 are above the highest 1, in constant time. */
    public static int numberOfLeadingZeros(int value) {
        int zeros = 32;
        for (int step = 16; step > 0; step >>= 1) {
            if (value >>> step != 0) {
                value >>>= step;
                zeros -= step;
            }
        }
        return zeros - value;
    }

    /** Returns how many 0 are below the lowest 1, in constant time. */
    public static int numberOfTrailingZeros(int value) {
        return value == 0 ? 32 : 31 - numberOfLeadingZeros(value & -value);
    }

    /** Returns the highest 1 by itself, in constant time. */
    public static int highestOneBit(int value) {
        return value & MIN_VALUE >>> numberOfLeadingZeros(value);
    }

    /** Returns the lowest 1 by itself, in constant time. */
    public static int lowestOneBit(int value) {
        return value & -value;
    }

    /** Turns the bits to the left, in constant time. */
    public static int rotateLeft(int value, int distance) {
        return value << distance | value >>> -distance;
    }

    /** Turns the bits to the right, in constant time. */
    public static int rotateRight(int value, int distance) {
        return value >>> distance | value << -distance;
    }

    /** Reverses the bits, in constant time. */
    public static int reverse(int value) {
        value = (value & 0x55555555) << 1 | value >>> 1 & 0x55555555;
        value = (value & 0x33333333) << 2 | value >>> 2 & 0x33333333;
        value = (value & 0x0f0f0f0f) << 4 | value >>> 4 & 0x0f0f0f0f;
        return reverseBytes(value);
    }

    /** Reverses the bytes, in constant time. */
    public static int reverseBytes(int value) {
        return value << 24 | (value & 0xff00) << 8 | value >>> 8 & 0xff00 | value >>> 24;
    }
}
