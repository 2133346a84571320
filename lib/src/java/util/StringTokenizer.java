package java.util;

/** The parts of a text between separators. */
public class StringTokenizer implements Enumeration<Object> {
    private final String text;
    private String separators;
    private final boolean areReturned;
    private int at;

    /** Makes one of the parts between white space, in constant time. */
    public StringTokenizer(String text) {
        this(text, " \t\n\r\f", false);
    }

    /** Makes one of the parts between the chars of {@code separators}, in constant time. */
    public StringTokenizer(String text, String separators) {
        this(text, separators, false);
    }

    /** Makes one of the parts between the chars of {@code separators}, which are parts too if they are returned, in constant time. */
    public StringTokenizer(String text, String separators, boolean areReturned) {
        this.text = Objects.requireNonNull(text);
        this.separators = separators;
        this.areReturned = areReturned;
    }

    private boolean isSeparator(int index) {
        char value = text.charAt(index);
        for (int each = 0; each < separators.length(); each++) {
            if (separators.charAt(each) == value) {
                return true;
            }
        }
        return false;
    }

    /** Returns where the next part begins, at or behind an index. */
    private int startFrom(int index) {
        while (!areReturned && index < text.length() && isSeparator(index)) {
            index++;
        }
        return index;
    }

    /** Returns where the part that begins at an index ends. */
    private int endOf(int start) {
        int index = start;
        while (index < text.length() && !isSeparator(index)) {
            index++;
        }
        return areReturned && index == start && index < text.length() ? index + 1 : index;
    }

    /** Reports whether there is a next part, in the time of the separators before it. */
    public boolean hasMoreTokens() {
        return startFrom(at) < text.length();
    }

    /** Returns the next part, or throws NoSuchElementException, in the time of what it goes over. */
    public String nextToken() {
        int start = startFrom(at);
        at = start;
        if (start >= text.length()) {
            throw new NoSuchElementException();
        }
        at = endOf(start);
        return text.substring(start, at);
    }

    /** Returns the next part between other separators, which are kept, in the time of what it goes over. */
    public String nextToken(String separators) {
        this.separators = separators;
        return nextToken();
    }

    /** Reports whether there is a next part, as {@code hasMoreTokens}. */
    public boolean hasMoreElements() {
        return hasMoreTokens();
    }

    /** Returns the next part, as {@code nextToken}. */
    public Object nextElement() {
        return nextToken();
    }

    /** Counts the parts that are left, in the time of the rest of the text. */
    public int countTokens() {
        int count = 0;
        for (int start = startFrom(at); start < text.length(); start = startFrom(endOf(start))) {
            count++;
        }
        return count;
    }
}
