package java.io;

/** What is built in of this class, for the compiler only: the bodies do nothing. */
public abstract class InputStream {
    public native int read() throws IOException;
}
