package java.io;

/** A source of chars: a class adds {@code read} of a part and {@code close}. */
public abstract class Reader implements Closeable {
    /** Makes a reader, in constant time. */
    protected Reader() {
    }

    /** Reads chars into a part of an array, and returns how many, or -1 at the end. */
    public abstract int read(char[] chars, int start, int count) throws IOException;

    /** Closes it, at the cost that the class has. */
    public abstract void close() throws IOException;

    /** Reads a char, or returns -1 at the end, through an array that is freed. */
    public int read() throws IOException {
        char[] one = new char[1];
        return read(one, 0, 1) < 0 ? -1 : one[0];
    }

    /** Reads chars into an array, and returns how many, or -1 at the end. */
    public int read(char[] chars) throws IOException {
        return read(chars, 0, chars.length);
    }

    /** Passes chars over, one by one, and returns how many. */
    public long skip(long count) throws IOException {
        if (count < 0) {
            throw new IllegalArgumentException("skip value is negative");
        }
        long skipped = 0;
        while (skipped < count && read() >= 0) {
            skipped++;
        }
        return skipped;
    }

    /** Reports whether the next {@code read} doesn't wait: here no. Constant time. */
    public boolean ready() throws IOException {
        return false;
    }
}
