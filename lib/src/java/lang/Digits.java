package java.lang;

import zuqelash.Texts;

/** The digits of numbers: what the boxes share. */
final class Digits {
    /** The most digits that a number has. */
    private static final int MOST = 65;

    Digits() {
    }

    /** Reads a number in a radix that lies between two. */
    static long parse(String text, int radix, long least, long greatest) {
        if (text == null) {
            throw new NumberFormatException("Cannot parse null string");
        }
        if (radix < Character.MIN_RADIX) {
            StringBuilder message = new StringBuilder().append("radix ").append(radix);
            throw new NumberFormatException(message.append(" less than Character.MIN_RADIX").toString());
        }
        if (radix > Character.MAX_RADIX) {
            StringBuilder message = new StringBuilder().append("radix ").append(radix);
            throw new NumberFormatException(message.append(" greater than Character.MAX_RADIX").toString());
        }
        int length = text.length();
        int index = 0;
        boolean isNegative = false;
        if (length > 0 && (text.charAt(0) == '-' || text.charAt(0) == '+')) {
            isNegative = text.charAt(0) == '-';
            index = 1;
        }
        if (index == length) {
            throw misformed(text, radix);
        }
        // (the number is built below zero, where there is one more)
        long limit = isNegative ? least : -greatest;
        long value = 0;
        for (; index < length; index++) {
            int digit = Character.digit(text.charAt(index), radix);
            if (digit < 0 || value < limit / radix) {
                throw misformed(text, radix);
            }
            value *= radix;
            if (value < limit + digit) {
                throw misformed(text, radix);
            }
            value -= digit;
        }
        return isNegative ? value : -value;
    }

    private static NumberFormatException misformed(String text, int radix) {
        StringBuilder message = new StringBuilder().append("For input string: \"").append(text).append('"');
        if (radix != 10) {
            message.append(" under radix ").append(radix);
        }
        return new NumberFormatException(message.toString());
    }

    /** Reads a number whose radix shows in what it begins with. */
    static long decode(String text, long least, long greatest) {
        int length = text.length();
        if (length == 0) {
            throw new NumberFormatException("Zero length string");
        }
        boolean isNegative = text.charAt(0) == '-';
        int index = isNegative || text.charAt(0) == '+' ? 1 : 0;
        int radix = 10;
        if (index + 1 < length && text.charAt(index) == '0' && (text.charAt(index + 1) == 'x' || text.charAt(index + 1) == 'X')) {
            radix = 16;
            index += 2;
        } else if (index < length && text.charAt(index) == '#') {
            radix = 16;
            index++;
        } else if (index + 1 < length && text.charAt(index) == '0') {
            radix = 8;
            index++;
        }
        if (index < length && (text.charAt(index) == '-' || text.charAt(index) == '+')) {
            throw new NumberFormatException("Sign character in wrong position");
        }
        String digits = text.substring(index, length);
        return parse(isNegative ? new StringBuilder().append('-').append(digits).toString() : digits, radix, least, greatest);
    }

    /** Returns a number in a radix, or in decimal where there is no such radix. */
    static String toText(long value, int radix) {
        if (radix < Character.MIN_RADIX || radix > Character.MAX_RADIX || radix == 10) {
            return String.valueOf(value);
        }
        char[] digits = new char[MOST];
        int start = MOST;
        // (below zero, where there is one more)
        long rest = value < 0 ? value : -value;
        do {
            digits[--start] = Character.forDigit((int) -(rest % radix), radix);
            rest /= radix;
        } while (rest != 0);
        if (value < 0) {
            digits[--start] = '-';
        }
        return Texts.of(digits, start, MOST);
    }

    /** Returns the bits of a number, that many in a digit. */
    static String toBits(long value, int bits) {
        char[] digits = new char[MOST];
        int start = MOST;
        do {
            digits[--start] = Character.forDigit((int) value & (1 << bits) - 1, 16);
            value >>>= bits;
        } while (value != 0);
        return Texts.of(digits, start, MOST);
    }
}
