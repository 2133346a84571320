package java.io;

/** The chars of a text. Each takes constant time. */
public class StringReader extends Reader {
    private String text;
    private int at;

    /** Makes one over a text, in constant time. */
    public StringReader(String text) {
        if (text == null) {
            throw new NullPointerException();
        }
        this.text = text;
    }

    private void checkOpen() throws IOException {
        if (text == null) {
            throw new IOException("Stream closed");
        }
    }

    /** Reads a char, or returns -1 at the end, in constant time. */
    public int read() throws IOException {
        checkOpen();
        return at < text.length() ? text.charAt(at++) : -1;
    }

    /** Reads chars into a part of an array, and returns how many, or -1 at the end, in their time. */
    public int read(char[] chars, int start, int count) throws IOException {
        checkOpen();
        int taken = 0;
        while (taken < count && at < text.length()) {
            chars[start + taken++] = text.charAt(at++);
        }
        return taken == 0 && count > 0 ? -1 : taken;
    }

    /** Reports that a read doesn't wait, in constant time. */
    public boolean ready() throws IOException {
        checkOpen();
        return true;
    }

    /** Closes it, in constant time: what reads then throws IOException. */
    public void close() {
        text = null;
    }
}
