package java.lang;

/** What a text has besides what is built in. It has no constructors: a text is made by a builder, of literals, or by {@code valueOf}. */
public final class String implements java.io.Serializable, Comparable<String>, CharSequence {
    String() {
    }

    public native int length();

    public native char charAt(int index);

    public native boolean equals(Object other);

    public native int hashCode();

    public native int compareTo(String other);

    public native String toString();

    public native String substring(int start, int end);

    public static native String valueOf(int value);

    public static native String valueOf(long value);

    public static native String valueOf(char value);

    public static native String valueOf(boolean value);

    public static native String valueOf(char[] chars);

    /** Returns an object's text, {@code null} for null, in the time of its {@code toString}. */
    public static String valueOf(Object value) {
        return value == null ? "null" : value.toString();
    }

    /** Makes a text of {@code count} chars from {@code start} on, in linear time. */
    public static String valueOf(char[] chars, int start, int count) {
        if (start < 0 || count < 0 || start > chars.length - count) {
            throw new StringIndexOutOfBoundsException();
        }
        return zuqelash.Texts.of(chars, start, start + count);
    }

    /** Makes a text of chars, in linear time. */
    public static String copyValueOf(char[] chars) {
        return valueOf(chars);
    }

    /** Makes a text of a format and what is put into it, without floats and dates, in the time of the whole for each part. */
    public static String format(String format, Object... arguments) {
        return zuqelash.Format.of(format, arguments);
    }

    /** Joins texts with one between each two, in linear time. */
    public static String join(CharSequence between, CharSequence... parts) {
        String separator = between.toString();
        String[] texts = new String[parts.length];
        for (int index = 0; index < texts.length; index++) {
            texts[index] = String.valueOf(parts[index]);
        }
        return zuqelash.Texts.joined("", texts, texts.length, separator, separator, "");
    }

    /** Joins texts with one between each two, in linear time. */
    public static String join(CharSequence between, Iterable<? extends CharSequence> parts) {
        String separator = between.toString();
        String[] texts = new String[8];
        int count = 0;
        java.util.Iterator<? extends CharSequence> each = parts.iterator();
        while (each.hasNext()) {
            if (count == texts.length) {
                String[] more = new String[2 * count];
                for (int index = 0; index < count; index++) {
                    more[index] = texts[index];
                }
                texts = more;
            }
            texts[count++] = String.valueOf(each.next());
        }
        return zuqelash.Texts.joined("", texts, count, separator, separator, "");
    }

    /** Returns whether it has no chars. */
    public boolean isEmpty() {
        return length() == 0;
    }

    /** Returns the chars from {@code start} on, in the time of their number. */
    public String substring(int start) {
        return substring(start, length());
    }

    /** Returns the chars from {@code start} to before {@code end}, in the time of their number. */
    public CharSequence subSequence(int start, int end) {
        return substring(start, end);
    }

    /** Returns where a char is first, or -1, in linear time. */
    public int indexOf(int value) {
        return indexOf(value, 0);
    }

    /** Returns where a char is first from an index on, or -1, in linear time. */
    public int indexOf(int value, int from) {
        for (int index = from < 0 ? 0 : from; index < length(); index++) {
            if (charAt(index) == value) {
                return index;
            }
        }
        return -1;
    }

    /** Returns where a char is last, or -1, in linear time. */
    public int lastIndexOf(int value) {
        return lastIndexOf(value, length() - 1);
    }

    /** Returns where a char is last up to an index, or -1, in linear time. */
    public int lastIndexOf(int value, int from) {
        for (int index = from < length() ? from : length() - 1; index >= 0; index--) {
            if (charAt(index) == value) {
                return index;
            }
        }
        return -1;
    }

    /** Returns where a text begins first, or -1, in the time of both lengths' product at most. */
    public int indexOf(String text) {
        return indexOf(text, 0);
    }

    /** Returns where a text begins first from an index on, or -1, in the time of both lengths' product at most. */
    public int indexOf(String text, int from) {
        for (int index = from < 0 ? 0 : from < length() ? from : length(); index <= length() - text.length(); index++) {
            if (startsWith(text, index)) {
                return index;
            }
        }
        return -1;
    }

    /** Returns where a text begins last, or -1, in the time of both lengths' product at most. */
    public int lastIndexOf(String text) {
        return lastIndexOf(text, length());
    }

    /** Returns where a text begins last up to an index, or -1, in the time of both lengths' product at most. */
    public int lastIndexOf(String text, int from) {
        int last = length() - text.length();
        for (int index = from < last ? from : last; index >= 0; index--) {
            if (startsWith(text, index)) {
                return index;
            }
        }
        return -1;
    }

    /** Returns whether it has the chars of a sequence one after the other. */
    public boolean contains(CharSequence text) {
        return indexOf(text.toString()) >= 0;
    }

    /** Returns whether it begins with a text, in the time of that text's length. */
    public boolean startsWith(String text) {
        return startsWith(text, 0);
    }

    /** Returns whether a text begins at an index, in the time of that text's length. */
    public boolean startsWith(String text, int from) {
        if (from < 0 || from > length() - text.length()) {
            return false;
        }
        for (int index = 0; index < text.length(); index++) {
            if (charAt(from + index) != text.charAt(index)) {
                return false;
            }
        }
        return true;
    }

    /** Returns whether it ends with a text, in the time of that text's length. */
    public boolean endsWith(String text) {
        return startsWith(text, length() - text.length());
    }

    /** Returns it with a text after it, in the time of both lengths. */
    public String concat(String text) {
        return text.length() == 0 ? this : new StringBuilder().append(this).append(text).toString();
    }

    /** Returns it with another char in place of each one of a value, in linear time. */
    public String replace(char value, char other) {
        if (indexOf(value) < 0) {
            return this;
        }
        char[] chars = toCharArray();
        for (int index = 0; index < chars.length; index++) {
            if (chars[index] == value) {
                chars[index] = other;
            }
        }
        return valueOf(chars);
    }

    /** Returns it with other chars in place of those of a sequence, from the left, in the time of the whole for each place. */
    public String replace(CharSequence value, CharSequence other) {
        String old = value.toString();
        String fresh = other.toString();
        StringBuilder text = new StringBuilder();
        int from = 0;
        int found = indexOf(old, 0);
        while (found >= 0 && found < length()) {
            int end = old.length() == 0 ? found + 1 : found;
            text.append(old.length() == 0 ? fresh : substring(from, end)).append(old.length() == 0 ? substring(from, end) : fresh);
            from = old.length() == 0 ? end : found + old.length();
            found = indexOf(old, from);
        }
        return text.append(substring(from)).append(old.length() == 0 ? fresh : "").toString();
    }

    /** Returns it without the chars up to the space at both ends, in linear time. */
    public String trim() {
        int start = 0;
        int end = length();
        while (start < end && charAt(start) <= ' ') {
            start++;
        }
        while (start < end && charAt(end - 1) <= ' ') {
            end--;
        }
        return start == 0 && end == length() ? this : substring(start, end);
    }

    /** Returns its chars, in linear time. */
    public char[] toCharArray() {
        char[] chars = new char[length()];
        for (int index = 0; index < chars.length; index++) {
            chars[index] = charAt(index);
        }
        return chars;
    }

    /** Puts the chars from {@code start} to before {@code end} into an array from a place on, in the time of their number. */
    public void getChars(int start, int end, char[] chars, int place) {
        for (int index = start; index < end; index++) {
            chars[place + index - start] = charAt(index);
        }
    }

    /** Returns it with each char as {@code Character.toLowerCase} has it, in linear time. */
    public String toLowerCase() {
        char[] chars = toCharArray();
        for (int index = 0; index < chars.length; index++) {
            chars[index] = Character.toLowerCase(chars[index]);
        }
        return valueOf(chars);
    }

    /** Returns it with each char as {@code Character.toUpperCase} has it, in linear time. */
    public String toUpperCase() {
        char[] chars = toCharArray();
        for (int index = 0; index < chars.length; index++) {
            chars[index] = Character.toUpperCase(chars[index]);
        }
        return valueOf(chars);
    }

    /** Compares it with another text without regard to case, in linear time. */
    public int compareToIgnoreCase(String other) {
        int count = length() < other.length() ? length() : other.length();
        for (int index = 0; index < count; index++) {
            char one = Character.toLowerCase(Character.toUpperCase(charAt(index)));
            char two = Character.toLowerCase(Character.toUpperCase(other.charAt(index)));
            if (one != two) {
                return one - two;
            }
        }
        return length() - other.length();
    }

    /** Returns whether it is another text without regard to case, in linear time. */
    public boolean equalsIgnoreCase(String other) {
        return other != null && length() == other.length() && compareToIgnoreCase(other) == 0;
    }

    /** Returns whether it has the chars of a sequence and no others. */
    public boolean contentEquals(CharSequence text) {
        return equals(text.toString());
    }

    /** Returns the parts between what fits a regular expression: at most {@code most} of them where that is positive. */
    public String[] split(String by, int most) {
        return new zuqelash.Pattern(by).split(this, most);
    }

    /** Reports whether the whole text fits a regular expression as {@link zuqelash.Pattern} takes it. */
    public boolean matches(String pattern) {
        return new zuqelash.Pattern(pattern).matches(this);
    }

    /** Returns it with each part that fits a regular expression replaced. */
    public String replaceAll(String pattern, String by) {
        return new zuqelash.Pattern(pattern).replace(this, by, true);
    }

    /** Returns it with the first part that fits a regular expression replaced. */
    public String replaceFirst(String pattern, String by) {
        return new zuqelash.Pattern(pattern).replace(this, by, false);
    }

    /** Returns the parts between what fits a regular expression as {@link zuqelash.Pattern} takes it, without empty ones at the end. */
    public String[] split(String by) {
        char value = by.length() == 0 ? '.' : by.charAt(by.length() - 1);
        boolean means_itself = by.length() == 1 && ".$|()[{^?*+\\".indexOf(value) < 0;
        if (!means_itself && !(by.length() == 2 && by.charAt(0) == '\\' && !Character.isLetterOrDigit(value))) {
            return split(by, 0);
        }
        int count = 1;
        int end = length();
        while (end > 0 && charAt(end - 1) == value) {
            end--;
        }
        for (int index = 0; index < end; index++) {
            if (charAt(index) == value) {
                count++;
            }
        }
        if (end == 0 && length() > 0) {
            return new String[0];
        }
        String[] parts = new String[count];
        int from = 0;
        for (int part = 0; part < count; part++) {
            int found = part == count - 1 ? end : indexOf(value, from);
            parts[part] = substring(from, found);
            from = found + 1;
        }
        return parts;
    }
}
