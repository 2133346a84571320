package java.io;

import zuqelash.Texts;

/**
 * Lines of another reader. Nothing is read ahead but a char, as reading has no cost that it would save.
 *
 * <p>What stays: the array of the longest line, and each array that it grew out of. A line is the caller's, who frees it.
 */
public class BufferedReader extends Reader {
    private static final int NONE = -2;
    private static final int FIRST_CAPACITY = 32;

    private Reader reader;
    /** A char that was read ahead, or none. */
    private int ahead = NONE;
    private char[] line = new char[FIRST_CAPACITY];

    /** Makes one over a reader, in constant time. */
    public BufferedReader(Reader reader) {
        if (reader == null) {
            throw new NullPointerException();
        }
        this.reader = reader;
    }

    /** Makes one over a reader, in constant time; the size is of no use. */
    public BufferedReader(Reader reader, int size) {
        this(reader);
        if (size <= 0) {
            throw new IllegalArgumentException("Buffer size <= 0");
        }
    }

    /** Reads a char, or returns -1 at the end, in constant time. */
    public int read() throws IOException {
        if (reader == null) {
            throw new IOException("Stream closed");
        }
        int taken = ahead == NONE ? reader.read() : ahead;
        ahead = NONE;
        return taken;
    }

    /** Reads chars into a part of an array, and returns how many, or -1 at the end, in their time. */
    public int read(char[] chars, int start, int count) throws IOException {
        for (int index = 0; index < count; index++) {
            int value = read();
            if (value < 0) {
                return index == 0 ? -1 : index;
            }
            chars[start + index] = (char) value;
        }
        return count;
    }

    /** Reads a line without its end, or returns null behind the last one, in linear time. */
    public String readLine() throws IOException {
        int value = read();
        if (value < 0) {
            return null;
        }
        int count = 0;
        while (value >= 0 && value != '\n' && value != '\r') {
            makeRoom(count);
            line[count++] = (char) value;
            value = read();
        }
        if (value == '\r') {
            ahead = read();
            if (ahead == '\n') {
                ahead = NONE;
            }
        }
        return Texts.of(line, 0, count);
    }

    private void makeRoom(int count) {
        if (count == line.length) {
            char[] longer = new char[count + (count >> 1)];
            for (int index = 0; index < count; index++) {
                longer[index] = line[index];
            }
            line = longer;
        }
    }

    /** Reports whether there is more to read without waiting, in constant time. */
    public boolean ready() throws IOException {
        return ahead >= 0 || ahead == NONE && reader.ready();
    }

    /** Closes it and its reader, in constant time. */
    public void close() throws IOException {
        if (reader != null) {
            reader.close();
            reader = null;
        }
    }
}
