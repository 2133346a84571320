package java.lang;

/** What is closed at the end of a {@code try} that opens it. */
public interface AutoCloseable {
    /** Closes it. */
    void close() throws Exception;
}
