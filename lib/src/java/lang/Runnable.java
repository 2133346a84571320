package java.lang;

/** Something that can be done. */
public interface Runnable {
    /** Does it. */
    void run();
}
