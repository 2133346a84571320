package java.io;

/** The chars of bytes that are UTF-8. What isn't is read as U+FFFD. Each char takes constant time. */
public class InputStreamReader extends Reader {
    private static final int NONE = -2;
    private static final char BAD = '\ufffd';

    private InputStream bytes;
    /** A byte that was read ahead, or none. */
    private int ahead = NONE;
    /** The second char of a pair whose first one was read, or none. */
    private int half = NONE;

    /** Makes one over a stream, in constant time. */
    public InputStreamReader(InputStream bytes) {
        if (bytes == null) {
            throw new NullPointerException();
        }
        this.bytes = bytes;
    }

    /** Makes one over a stream, in constant time: the charset may be UTF-8 or US-ASCII. */
    public InputStreamReader(InputStream bytes, String charset) throws UnsupportedEncodingException {
        this(bytes);
        if (!charset.equals("UTF-8") && !charset.equals("US-ASCII")) {
            throw new UnsupportedEncodingException(charset);
        }
    }

    private int readByte() throws IOException {
        if (bytes == null) {
            throw new IOException("Stream closed");
        }
        int taken = ahead == NONE ? bytes.read() : ahead;
        ahead = NONE;
        return taken;
    }

    /** Reads a char, or returns -1 at the end, in constant time. */
    public int read() throws IOException {
        if (half != NONE) {
            int second = half;
            half = NONE;
            return second;
        }
        int first = readByte();
        if (first < 0x80) {
            return first;
        }
        int more = first >= 0xf0 && first <= 0xf4 ? 3 : first >= 0xe0 && first < 0xf0 ? 2 : first >= 0xc2 && first < 0xe0 ? 1 : 0;
        if (more == 0) {
            return BAD;
        }
        int point = first & 0x3f >> more;
        for (int index = 0; index < more; index++) {
            int next = readByte();
            if (!mayFollow(first, index, next)) {
                ahead = next;
                return BAD;
            }
            point = point << 6 | next & 0x3f;
        }
        if (point < 0x10000) {
            return 0xd800 <= point && point <= 0xdfff ? BAD : point;
        }
        half = 0xdc00 | point & 0x3ff;
        return 0xd7c0 + (point >> 10);
    }

    /** Reports whether a byte may follow the first one, behind some that did: no char is longer than it has to be. */
    private static boolean mayFollow(int first, int index, int next) {
        int least = index > 0 ? 0x80 : first == 0xe0 ? 0xa0 : first == 0xf0 ? 0x90 : 0x80;
        int greatest = index > 0 ? 0xbf : first == 0xf4 ? 0x8f : 0xbf;
        return least <= next && next <= greatest;
    }

    /** Reads chars into a part of an array, and returns how many, or -1 at the end, in their time. */
    public int read(char[] chars, int start, int count) throws IOException {
        for (int index = 0; index < count; index++) {
            int value = read();
            if (value < 0) {
                return index == 0 ? -1 : index;
            }
            chars[start + index] = (char) value;
        }
        return count;
    }

    /** Reports whether there is more to read, in constant time: it reads a byte ahead, since what is read never waits. */
    public boolean ready() throws IOException {
        if (half == NONE && ahead == NONE) {
            ahead = readByte();
        }
        return half != NONE || ahead >= 0;
    }

    /** Closes it, in constant time: what reads then throws IOException. */
    public void close() throws IOException {
        bytes = null;
    }
}
