package java.lang;

/** A sequence of chars. Texts and builders are of these where a program brings what completes them. */
public interface CharSequence {
    /** Returns the number of chars. */
    int length();

    /** Returns the char at an index. */
    char charAt(int index);

    /** Returns the chars from {@code start} to before {@code end}. */
    CharSequence subSequence(int start, int end);

    /** Returns the chars as a text. */
    String toString();
}
