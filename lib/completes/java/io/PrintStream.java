package java.io;

/** What a stream for printing has besides what is built in. */
public class PrintStream {
    PrintStream() {
    }

    public native void print(int value);

    public native void print(long value);

    public native void print(char value);

    public native void print(boolean value);

    public native void print(String value);

    public native void println(int value);

    public native void println(long value);

    public native void println(char value);

    public native void println(boolean value);

    public native void println(String value);

    public native void println();

    /** Prints an object's text, in the time of its {@code toString}. */
    public void print(Object value) {
        print(String.valueOf(value));
    }

    /** Prints chars, in linear time. */
    public void print(char[] value) {
        print(String.valueOf(value));
    }

    /** Prints an object's text and ends the line, in the time of its {@code toString}. */
    public void println(Object value) {
        println(String.valueOf(value));
    }

    /** Prints chars and ends the line, in linear time. */
    public void println(char[] value) {
        println(String.valueOf(value));
    }

    /** Prints a format and what is put into it, without floats and dates, part by part. */
    public PrintStream printf(String format, Object... arguments) {
        return format(format, arguments);
    }

    /** Prints a format and what is put into it, without floats and dates, part by part. */
    public PrintStream format(String format, Object... arguments) {
        zuqelash.Format parts = new zuqelash.Format(format, arguments);
        while (parts.hasNext()) {
            print(parts.next());
        }
        return this;
    }

    /** Prints a char. */
    public PrintStream append(char value) {
        print(value);
        return this;
    }

    /** Prints the chars of a sequence, in the time of their number. */
    public PrintStream append(CharSequence value) {
        print(String.valueOf(value));
        return this;
    }

    /** Does nothing: what is printed isn't kept back. */
    public void flush() {
    }
}
