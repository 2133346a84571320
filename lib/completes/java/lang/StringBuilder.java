package java.lang;

/** What a builder has besides what is built in. What looks at more than one of its chars takes the whole text first, in the time of its length. */
public final class StringBuilder implements CharSequence {
    public StringBuilder() {
    }

    /** Makes an empty builder; a capacity has no meaning here. */
    public StringBuilder(int capacity) {
        if (capacity < 0) {
            throw new NegativeArraySizeException();
        }
    }

    /** Makes a builder with a text, in the time of its length. */
    public StringBuilder(String text) {
        append(text.toString());
    }

    /** Makes a builder with the chars of a sequence, in the time of its length. */
    public StringBuilder(CharSequence text) {
        append(text.toString());
    }

    public native StringBuilder append(int value);

    public native StringBuilder append(long value);

    public native StringBuilder append(char value);

    public native StringBuilder append(boolean value);

    public native StringBuilder append(String value);

    public native int length();

    public native String toString();

    public native char charAt(int index);

    public native void setLength(int length);

    /** Appends an object's text, in the time of its {@code toString}. */
    public StringBuilder append(Object value) {
        return append(String.valueOf(value));
    }

    /** Appends the chars of a sequence, in the time of their number. */
    public StringBuilder append(CharSequence value) {
        return append(String.valueOf(value));
    }

    /** Appends the chars of a sequence from {@code start} to before {@code end}, in the time of their number. */
    public StringBuilder append(CharSequence value, int start, int end) {
        String text = String.valueOf(value);
        Places.check_range(start, end, text.length());
        return append(text.substring(start, end));
    }

    /** Appends the text of another builder, in the time of its length. */
    public StringBuilder append(StringBuffer value) {
        return append(String.valueOf(value));
    }

    /** Appends chars, in the time of both lengths. */
    public StringBuilder append(char[] value) {
        return append(String.valueOf(value));
    }

    /** Appends {@code count} chars from {@code start} on, in the time of both lengths. */
    public StringBuilder append(char[] value, int start, int count) {
        Places.check_range(start, start + count, value.length);
        return append(zuqelash.Texts.of(value, start, start + count));
    }

    /** Returns the chars from {@code start} on, in the time of the whole length. */
    public String substring(int start) {
        return toString().substring(start);
    }

    /** Returns the chars from {@code start} to before {@code end}, in the time of the whole length. */
    public String substring(int start, int end) {
        return toString().substring(start, end);
    }

    /** Returns the chars from {@code start} to before {@code end}, in the time of the whole length. */
    public CharSequence subSequence(int start, int end) {
        return substring(start, end);
    }

    /** Returns where a text begins first, or -1. */
    public int indexOf(String text) {
        return toString().indexOf(text);
    }

    /** Returns where a text begins first from an index on, or -1. */
    public int indexOf(String text, int from) {
        return toString().indexOf(text, from);
    }

    /** Returns where a text begins last, or -1. */
    public int lastIndexOf(String text) {
        return toString().lastIndexOf(text);
    }

    /** Returns where a text begins last up to an index, or -1. */
    public int lastIndexOf(String text, int from) {
        return toString().lastIndexOf(text, from);
    }

    /** Puts the chars from {@code start} to before {@code end} into an array from a place on, in the time of their number. */
    public void getChars(int start, int end, char[] chars, int place) {
        Places.within(start, end, length());
        Places.check_range(place, place + end - start, chars.length);
        for (int index = start; index < end; index++) {
            chars[place + index - start] = charAt(index);
        }
    }

    /** Puts a char in place of the one at an index, in the time of the whole length. */
    public void setCharAt(int index, char value) {
        String text = toString();
        Places.check(index, text.length());
        setLength(index);
        append(value).append(text.substring(index + 1, text.length()));
    }

    /** Takes out the char at an index, in the time of the whole length. */
    public StringBuilder deleteCharAt(int index) {
        String text = toString();
        Places.check(index, text.length());
        setLength(index);
        return append(text.substring(index + 1, text.length()));
    }

    /** Takes out the chars from {@code start} to before {@code end}, in the time of the whole length. */
    public StringBuilder delete(int start, int end) {
        String text = toString();
        int past = Places.past(start, end, text.length());
        setLength(start);
        return append(text.substring(past, text.length()));
    }

    /** Puts a text in place of the chars from {@code start} to before {@code end}, in the time of both lengths. */
    public StringBuilder replace(int start, int end, String by) {
        String text = toString();
        int past = Places.past(start, end, text.length());
        String added = by.toString();
        setLength(start);
        return append(added).append(text.substring(past, text.length()));
    }

    /** Puts a text before the char at an index, in the time of both lengths. */
    public StringBuilder insert(int index, String value) {
        String text = toString();
        Places.check_offset(index, text.length());
        setLength(index);
        return append(value).append(text.substring(index, text.length()));
    }

    /** Puts an object's text before the char at an index, in the time of both lengths. */
    public StringBuilder insert(int index, Object value) {
        return insert(index, String.valueOf(value));
    }

    /** Puts the chars of a sequence before the char at an index, in the time of both lengths. */
    public StringBuilder insert(int index, CharSequence value) {
        return insert(index, String.valueOf(value));
    }

    /** Puts the chars of a sequence from {@code start} to before {@code end} before the char at an index, in the time of both lengths. */
    public StringBuilder insert(int index, CharSequence value, int start, int end) {
        Places.check_offset(index, length());
        String added = String.valueOf(value);
        Places.check_range(start, end, added.length());
        return insert(index, added.substring(start, end));
    }

    /** Puts chars before the char at an index, in the time of both lengths. */
    public StringBuilder insert(int index, char[] value) {
        Places.check_offset(index, length());
        return insert(index, String.valueOf(value));
    }

    /** Puts {@code count} chars from {@code start} on before the char at an index, in the time of both lengths. */
    public StringBuilder insert(int index, char[] value, int start, int count) {
        Places.check_offset(index, length());
        return insert(index, zuqelash.Texts.of(value, start, Places.within(start, start + count, value.length)));
    }

    /** Puts {@code true} or {@code false} before the char at an index, in the time of the whole length. */
    public StringBuilder insert(int index, boolean value) {
        return insert(index, String.valueOf(value));
    }

    /** Puts a char before the char at an index, in the time of the whole length. */
    public StringBuilder insert(int index, char value) {
        return insert(index, String.valueOf(value));
    }

    /** Puts a number before the char at an index, in the time of the whole length. */
    public StringBuilder insert(int index, int value) {
        return insert(index, String.valueOf(value));
    }

    /** Puts a number before the char at an index, in the time of the whole length. */
    public StringBuilder insert(int index, long value) {
        return insert(index, String.valueOf(value));
    }

    /** Turns the chars round, but for pairs of surrogates, which stay as they are, in the time of the whole length. */
    public StringBuilder reverse() {
        String chars = Places.reversed(toString());
        setLength(0);
        return append(chars);
    }

    /** Does nothing: a builder takes what it needs. */
    public void ensureCapacity(int least) {
    }

    /** Does nothing: a builder has what it needs. */
    public void trimToSize() {
    }
}
