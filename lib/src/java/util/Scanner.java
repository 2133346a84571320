package java.util;

import java.io.IOException;
import java.io.InputStream;
import java.io.InputStreamReader;
import java.io.Reader;
import java.io.StringReader;
import zuqelash.Texts;

/**
 * The words, numbers and lines of a source. Words are between white space; there are no patterns and no other separators, and a number
 * has no separators of thousands.
 *
 * <p>What stays: the array of what was read ahead, one word or line, and each array that it grew out of. The texts that are
 * returned are the caller's, who frees them.
 */
public final class Scanner implements Iterator<String> {
    private static final int FIRST_CAPACITY = 32;

    private Reader source;
    private boolean isAtEnd;
    /** What was read ahead: {@code count} chars from {@code start} on. */
    private char[] ahead = new char[FIRST_CAPACITY];
    private int start;
    private int count;

    /** Makes one over the bytes of a stream, which are UTF-8, in constant time. */
    public Scanner(InputStream bytes) {
        source = new InputStreamReader(bytes);
    }

    /** Makes one over a text, in constant time. */
    public Scanner(String text) {
        source = new StringReader(text);
    }

    private void checkOpen() {
        if (source == null) {
            throw new IllegalStateException("Scanner closed");
        }
    }

    /** Returns the char at a distance, or -1 behind the last one. */
    private int at(int distance) {
        while (distance >= count && !isAtEnd) {
            readAhead();
        }
        return distance < count ? ahead[start + distance] : -1;
    }

    private void readAhead() {
        int value;
        try {
            value = source.read();
        } catch (IOException e) {
            value = -1;
        }
        if (value < 0) {
            isAtEnd = true;
            return;
        }
        if (start + count == ahead.length) {
            makeRoom();
        }
        ahead[start + count++] = (char) value;
    }

    /** Moves what was read ahead to the front, of a longer array where it is full. */
    private void makeRoom() {
        char[] to = 2 * count > ahead.length ? new char[ahead.length + (ahead.length >> 1)] : ahead;
        for (int index = 0; index < count; index++) {
            to[index] = ahead[start + index];
        }
        ahead = to;
        start = 0;
    }

    private void pass(int distance) {
        start += distance;
        count -= distance;
    }

    /** Returns what was read ahead, from one distance to before another. */
    private String text(int from, int to) {
        return Texts.of(ahead, start + from, start + to);
    }

    /** Returns the distance of the next word. */
    private int wordStart() {
        int distance = 0;
        while (at(distance) >= 0 && Character.isWhitespace((char) at(distance))) {
            distance++;
        }
        return distance;
    }

    /** Returns the distance at which the word ends that begins at another one. */
    private int wordEnd(int distance) {
        while (at(distance) >= 0 && !Character.isWhitespace((char) at(distance))) {
            distance++;
        }
        return distance;
    }

    /** Reports whether there is a next word, in the time of what is before it. */
    public boolean hasNext() {
        checkOpen();
        return at(wordStart()) >= 0;
    }

    /** Passes what is before the next word, also where there is none. */
    private String word() {
        checkOpen();
        pass(wordStart());
        if (at(0) < 0) {
            throw new NoSuchElementException();
        }
        return text(0, wordEnd(0));
    }

    /** Returns the next word, which there is, and passes nothing. */
    private String seen() {
        int from = wordStart();
        return text(from, wordEnd(from));
    }

    /** Returns the next word, or throws NoSuchElementException, in linear time. */
    public String next() {
        String word = word();
        pass(wordEnd(0));
        return word;
    }

    /** Throws UnsupportedOperationException. */
    public void remove() {
        throw new UnsupportedOperationException();
    }

    private static boolean isWhole(String word, int radix) {
        int first = word.length() > 0 && (word.charAt(0) == '-' || word.charAt(0) == '+') ? 1 : 0;
        for (int index = first; index < word.length(); index++) {
            if (Character.digit(word.charAt(index), radix) < 0) {
                return false;
            }
        }
        return first < word.length();
    }

    /** Reads a number as the next word, which is passed only if it is one; what is before it is passed. */
    private long number(int radix, boolean isInt) {
        String word = word();
        if (!isWhole(word, radix)) {
            throw new InputMismatchException();
        }
        long number;
        try {
            number = isInt ? Integer.parseInt(word, radix) : Long.parseLong(word, radix);
        } catch (NumberFormatException e) {
            throw new InputMismatchException(e.getMessage());
        }
        pass(wordEnd(0));
        return number;
    }

    private boolean isNumberNext(int radix, boolean isInt) {
        if (!hasNext()) {
            return false;
        }
        String word = seen();
        if (!isWhole(word, radix)) {
            return false;
        }
        try {
            return (isInt ? Integer.parseInt(word, radix) : Long.parseLong(word, radix)) <= Long.MAX_VALUE;
        } catch (NumberFormatException e) {
            return false;
        }
    }

    /** Reports whether the next word is an int, in the time of reading it. */
    public boolean hasNextInt() {
        return isNumberNext(10, true);
    }

    /** Reports whether the next word is an int in a radix, in the time of reading it. */
    public boolean hasNextInt(int radix) {
        return isNumberNext(radix, true);
    }

    /** Returns the next word as an int, or throws InputMismatchException or NoSuchElementException, in the time of reading it. */
    public int nextInt() {
        return (int) number(10, true);
    }

    /** Returns the next word as an int in a radix, as above. */
    public int nextInt(int radix) {
        return (int) number(radix, true);
    }

    /** Reports whether the next word is a long, in the time of reading it. */
    public boolean hasNextLong() {
        return isNumberNext(10, false);
    }

    /** Returns the next word as a long, or throws InputMismatchException or NoSuchElementException, in the time of reading it. */
    public long nextLong() {
        return number(10, false);
    }

    private static boolean isBoolean(String word) {
        return Boolean.parseBoolean(word) || isFalse(word);
    }

    private static boolean isFalse(String word) {
        if (word.length() != 5) {
            return false;
        }
        for (int index = 0; index < 5; index++) {
            if (Character.toLowerCase(word.charAt(index)) != "false".charAt(index)) {
                return false;
            }
        }
        return true;
    }

    /** Reports whether the next word is {@code true} or {@code false} in letters of any case, in the time of reading it. */
    public boolean hasNextBoolean() {
        return hasNext() && isBoolean(seen());
    }

    /** Returns the next word as a boolean, or throws InputMismatchException or NoSuchElementException, in the time of reading it. */
    public boolean nextBoolean() {
        String word = word();
        if (!isBoolean(word)) {
            throw new InputMismatchException();
        }
        pass(wordEnd(0));
        return Boolean.parseBoolean(word);
    }

    private static boolean endsLine(int value) {
        return value == '\n' || value == '\r' || value == 0x85 || value == 0x2028 || value == 0x2029;
    }

    /** Reports whether there is a next line, in constant time. */
    public boolean hasNextLine() {
        checkOpen();
        return at(0) >= 0;
    }

    /** Returns the rest of the line, or throws NoSuchElementException, in linear time. */
    public String nextLine() {
        checkOpen();
        if (at(0) < 0) {
            throw new NoSuchElementException("No line found");
        }
        int end = 0;
        while (at(end) >= 0 && !endsLine(at(end))) {
            end++;
        }
        String line = text(0, end);
        int passed = at(end) == '\r' && at(end + 1) == '\n' ? 2 : at(end) >= 0 ? 1 : 0;
        pass(end + passed);
        return line;
    }

    /** Closes it and its source, in constant time: what reads then throws IllegalStateException. */
    public void close() {
        source = null;
    }
}
