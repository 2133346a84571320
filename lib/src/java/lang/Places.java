package java.lang;

/** Places in texts that are built: what both builders share. */
final class Places {
    Places() {
    }

    /** Checks that a text of this length has a char at an index, in constant time. */
    static void check(int index, int length) {
        if (index < 0 || index >= length) {
            throw outside("index ", index, length);
        }
    }

    /** Checks that something can be put before a char of a text of this length, or behind it, in constant time. */
    static void check_offset(int offset, int length) {
        if (offset < 0 || offset > length) {
            throw outside("offset ", offset, length);
        }
    }

    /** Checks that a sequence of this length has such a part, in constant time. */
    static void check_range(int start, int end, int length) {
        if (start < 0 || start > end || end > length) {
            throw new IndexOutOfBoundsException(part(start, end, length));
        }
    }

    /** Returns where such a part of a text of this length ends, which may be given too great, in constant time. */
    static int past(int start, int end, int length) {
        return within(start, end > length ? length : end, length);
    }

    /** Returns the end of such a part, if there is one, in constant time. */
    static int within(int start, int end, int length) {
        if (start < 0 || start > end || end > length) {
            throw new StringIndexOutOfBoundsException(part(start, end, length));
        }
        return end;
    }

    /** Returns the chars from the last one to the first, but for pairs of surrogates, in linear time. */
    static String reversed(String text) {
        int length = text.length();
        char[] chars = new char[length];
        for (int place = 0; place < length; place++) {
            chars[place] = text.charAt(length - 1 - place);
        }
        for (int place = 0; place < length - 1; place++) {
            if (chars[place] >= '\uDC00' && chars[place] <= '\uDFFF' && chars[place + 1] >= '\uD800' && chars[place + 1] <= '\uDBFF') {
                char low = chars[place];
                chars[place++] = chars[place];
                chars[place] = low;
            }
        }
        return String.valueOf(chars);
    }

    private static StringIndexOutOfBoundsException outside(String what, int place, int length) {
        return new StringIndexOutOfBoundsException(new StringBuilder().append(what).append(place).append(", length ").append(length).toString());
    }

    private static String part(int start, int end, int length) {
        return new StringBuilder().append("start ").append(start).append(", end ").append(end).append(", length ").append(length).toString();
    }
}
