package java.io;

/** What can be closed. */
public interface Closeable extends AutoCloseable {
    /** Closes it. */
    void close() throws IOException;
}
