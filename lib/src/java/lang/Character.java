package java.lang;

import java.io.Serializable;

/**
 * A char as an object, and what chars are.
 *
 * <p>The tests know the chars up to U+00FF, as Unicode has them. Of those above, none is a letter, a digit or a space, and each
 * is its own upper and lower case.
 *
 * <p>What stays: the boxes up to U+007F, each made once; and each other box that {@code valueOf} returns, since the same call
 * could have returned one that is kept.
 */
public final class Character implements Serializable, Comparable<Character> {
    public static final char MIN_VALUE = '\u0000';
    public static final char MAX_VALUE = '\uffff';
    public static final int SIZE = 16;
    public static final int BYTES = 2;
    public static final int MIN_RADIX = 2;
    public static final int MAX_RADIX = 36;
    public static final char MIN_HIGH_SURROGATE = '\ud800';
    public static final char MAX_HIGH_SURROGATE = '\udbff';
    public static final char MIN_LOW_SURROGATE = '\udc00';
    public static final char MAX_LOW_SURROGATE = '\udfff';
    public static final char MIN_SURROGATE = MIN_HIGH_SURROGATE;
    public static final char MAX_SURROGATE = MAX_LOW_SURROGATE;
    public static final int MIN_CODE_POINT = 0;
    public static final int MAX_CODE_POINT = 0x10ffff;
    public static final int MIN_SUPPLEMENTARY_CODE_POINT = 0x10000;

    private final char value;

    /** Makes a box, in constant time. */
    public Character(char value) {
        this.value = value;
    }

    /** The boxes that are shared. */
    static final class Cache {
        private static final Character[] BOXES = new Character[128];

        Cache() {
        }

        static Character box(char value) {
            Character box = BOXES[value];
            if (box == null) {
                box = new Character(value);
                BOXES[value] = box;
            }
            return box;
        }
    }

    /** Returns a box, always the same one up to U+007F, in constant time. */
    public static Character valueOf(char value) {
        return value < 128 ? Cache.box(value) : new Character(value);
    }

    /** Returns the char, in constant time. */
    public char charValue() {
        return value;
    }

    /** Returns a text of the char, in constant time. */
    public String toString() {
        return String.valueOf(value);
    }

    /** Returns a text of a char, in constant time. */
    public static String toString(char value) {
        return String.valueOf(value);
    }

    /** Returns the char's number, in constant time. */
    public int hashCode() {
        return value;
    }

    /** Returns the char's number, in constant time. */
    public static int hashCode(char value) {
        return value;
    }

    /** Reports whether the other object is a Character of the same char, in constant time. */
    public boolean equals(Object other) {
        return other instanceof Character && ((Character) other).value == value;
    }

    /** Returns the difference of the chars, in constant time. */
    public int compareTo(Character other) {
        return value - other.value;
    }

    /** Returns the difference of the chars, in constant time. */
    public static int compare(char one, char other) {
        return one - other;
    }

    /** Reports whether it is a digit: of the chars known, 0 to 9. Constant time. */
    public static boolean isDigit(char value) {
        return isDigit((int) value);
    }

    /** Reports whether it is a digit: of the chars known, 0 to 9. Constant time. */
    public static boolean isDigit(int value) {
        return '0' <= value && value <= '9';
    }

    /** Reports whether it is a letter, in constant time. */
    public static boolean isLetter(char value) {
        return isLetter((int) value);
    }

    /** Reports whether it is a letter, in constant time. */
    public static boolean isLetter(int value) {
        return isUpperCase(value) || isLowerCase(value);
    }

    /** Reports whether it is a letter, in constant time. */
    public static boolean isAlphabetic(int value) {
        return isLetter(value);
    }

    /** Reports whether it is a letter or a digit, in constant time. */
    public static boolean isLetterOrDigit(char value) {
        return isLetterOrDigit((int) value);
    }

    /** Reports whether it is a letter or a digit, in constant time. */
    public static boolean isLetterOrDigit(int value) {
        return isLetter(value) || isDigit(value);
    }

    /** Reports whether it is a small letter, in constant time. */
    public static boolean isLowerCase(char value) {
        return isLowerCase((int) value);
    }

    /** Reports whether it is a small letter, in constant time. */
    public static boolean isLowerCase(int value) {
        return 'a' <= value && value <= 'z' || 0xdf <= value && value <= 0xff && value != 0xf7 || value == 0xaa || value == 0xb5 || value == 0xba;
    }

    /** Reports whether it is a capital letter, in constant time. */
    public static boolean isUpperCase(char value) {
        return isUpperCase((int) value);
    }

    /** Reports whether it is a capital letter, in constant time. */
    public static boolean isUpperCase(int value) {
        return 'A' <= value && value <= 'Z' || 0xc0 <= value && value <= 0xde && value != 0xd7;
    }

    /** Reports whether it separates words: a space that lines may be broken at, a tab or the like, or the end of a line. Constant time. */
    public static boolean isWhitespace(char value) {
        return isWhitespace((int) value);
    }

    /** Reports whether it separates words: a space that lines may be broken at, a tab or the like, or the end of a line. Constant time. */
    public static boolean isWhitespace(int value) {
        return value == ' ' || '\t' <= value && value <= '\r' || 0x1c <= value && value <= 0x1f;
    }

    /** Reports whether it is a space of Unicode: of the chars known, U+0020 and U+00A0. Constant time. */
    public static boolean isSpaceChar(char value) {
        return value == ' ' || value == 0xa0;
    }

    /** Reports whether it is a control character, in constant time. */
    public static boolean isISOControl(char value) {
        return value <= 0x1f || 0x7f <= value && value <= 0x9f;
    }

    /** Reports whether a name may begin with it, in constant time. */
    public static boolean isJavaIdentifierStart(char value) {
        return isLetter(value) || value == '$' || value == '_' || 0xa2 <= value && value <= 0xa5;
    }

    /** Reports whether a name may have it behind its first char, in constant time. */
    public static boolean isJavaIdentifierPart(char value) {
        return isJavaIdentifierStart(value) || isDigit(value) || isIgnorable(value);
    }

    private static boolean isIgnorable(char value) {
        return value <= 8 || 0xe <= value && value <= 0x1b || 0x7f <= value && value <= 0x9f || value == 0xad;
    }

    /** Returns the capital letter of a small one, or the char itself, in constant time. */
    public static char toUpperCase(char value) {
        return (char) toUpperCase((int) value);
    }

    /** Returns the capital letter of a small one, or the char itself, in constant time. */
    public static int toUpperCase(int value) {
        if (!isLowerCase(value) || value == 0xdf || value == 0xaa || value == 0xba) {
            return value;
        }
        return value == 0xff ? 0x178 : value == 0xb5 ? 0x39c : value - 32;
    }

    /** Returns the small letter of a capital one, or the char itself, in constant time. */
    public static char toLowerCase(char value) {
        return (char) toLowerCase((int) value);
    }

    /** Returns the small letter of a capital one, or the char itself, in constant time. */
    public static int toLowerCase(int value) {
        return isUpperCase(value) ? value + 32 : value;
    }

    /** Returns the char with its two bytes exchanged, in constant time. */
    public static char reverseBytes(char value) {
        return (char) (value << 8 | value >> 8);
    }

    /** Returns the value of a digit or a letter in a radix, or -1, in constant time. */
    public static int digit(char value, int radix) {
        return digit((int) value, radix);
    }

    /** Returns the value of a digit or a letter in a radix, or -1, in constant time. */
    public static int digit(int value, int radix) {
        int digit = numeric(value);
        return MIN_RADIX <= radix && radix <= MAX_RADIX && digit < radix ? digit : -1;
    }

    /** Returns the digit or small letter of a value in a radix, or U+0000, in constant time. */
    public static char forDigit(int digit, int radix) {
        if (digit < 0 || digit >= radix || radix < MIN_RADIX || radix > MAX_RADIX) {
            return '\0';
        }
        return (char) (digit < 10 ? '0' + digit : 'a' - 10 + digit);
    }

    /** Returns the value of a digit, 10 to 35 of a letter, or -1, in constant time. */
    public static int getNumericValue(char value) {
        // (fractions are no whole numbers)
        return value == 0xb2 || value == 0xb3 ? value - 0xb0 : value == 0xb9 ? 1 : 0xbc <= value && value <= 0xbe ? -2 : numeric(value);
    }

    private static int numeric(int value) {
        if (isDigit(value)) {
            return value - '0';
        }
        int small = value | 0x20;
        return value < 128 && 'a' <= small && small <= 'z' ? small - 'a' + 10 : -1;
    }

    /** Reports whether it is the first half of a surrogate pair, in constant time. */
    public static boolean isHighSurrogate(char value) {
        return MIN_HIGH_SURROGATE <= value && value <= MAX_HIGH_SURROGATE;
    }

    /** Reports whether it is the second half of a surrogate pair, in constant time. */
    public static boolean isLowSurrogate(char value) {
        return MIN_LOW_SURROGATE <= value && value <= MAX_LOW_SURROGATE;
    }

    /** Reports whether it is a half of a surrogate pair, in constant time. */
    public static boolean isSurrogate(char value) {
        return MIN_SURROGATE <= value && value <= MAX_SURROGATE;
    }

    /** Reports whether the two are a surrogate pair, in constant time. */
    public static boolean isSurrogatePair(char high, char low) {
        return isHighSurrogate(high) && isLowSurrogate(low);
    }

    /** Reports whether it is a code point, in constant time. */
    public static boolean isValidCodePoint(int value) {
        return MIN_CODE_POINT <= value && value <= MAX_CODE_POINT;
    }

    /** Reports whether it is a code point of two chars, in constant time. */
    public static boolean isSupplementaryCodePoint(int value) {
        return MIN_SUPPLEMENTARY_CODE_POINT <= value && value <= MAX_CODE_POINT;
    }

    /** Returns how many chars a code point has, in constant time. */
    public static int charCount(int value) {
        return value >= MIN_SUPPLEMENTARY_CODE_POINT ? 2 : 1;
    }

    /** Returns the code point of a surrogate pair, in constant time. */
    public static int toCodePoint(char high, char low) {
        return (high - MIN_HIGH_SURROGATE << 10) + (low - MIN_LOW_SURROGATE) + MIN_SUPPLEMENTARY_CODE_POINT;
    }
}
