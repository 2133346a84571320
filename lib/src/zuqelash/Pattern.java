package zuqelash;

/**
 * A regular expression of chars and sets of chars one after the other, each alone or with {@code ?}, {@code *} or {@code +} behind it.
 * What has a group, an alternative, an anchor or a number of times is an UnsupportedOperationException.
 */
public final class Pattern {
    private static final char ONCE = ' ';

    private final String pattern;
    /** Where each item begins in the pattern, and what is behind it. */
    private final int[] items;
    private final char[] counts;
    private int size;
    /** Where the text that was found begins and ends. */
    private int start;
    private int end;

    /** Reads a pattern, in linear time. */
    public Pattern(String pattern) {
        this.pattern = pattern;
        items = new int[pattern.length()];
        counts = new char[pattern.length()];
        int at = 0;
        while (at < pattern.length()) {
            items[size] = at;
            at = behind(at);
            boolean isCounted = at < pattern.length() && isAny(pattern.charAt(at), "?*+");
            counts[size++] = isCounted ? pattern.charAt(at++) : ONCE;
        }
    }

    /** Reports whether the whole text fits, in the time of its length and of what was tried in vain. */
    public boolean matches(String text) {
        return endOf(text, 0, 0, true) >= 0;
    }

    /** Returns the parts between what fits: at most {@code most} where that is positive, and where it is 0 without empty ones at the end. */
    public String[] split(String text, int most) {
        int count = 0;
        int filled = 0;
        int from = 0;
        for (boolean isFound = find(text, 0); isFound && count != most - 1; isFound = findNext(text)) {
            if (end > 0) {
                count++;
                filled = start > from ? count : filled;
                from = end;
            }
        }
        if (count == 0) {
            return new String[] {text};
        }
        filled = text.length() > from ? count + 1 : filled;
        String[] parts = new String[most == 0 ? filled : count + 1];
        from = 0;
        find(text, 0);
        for (int part = 0; part < parts.length; part++) {
            if (part > 0 || end == 0) {
                findNext(text);
            }
            parts[part] = text.substring(from, part == count ? text.length() : start);
            from = end;
        }
        return parts;
    }

    /** Replaces the first text that fits, or each, in {@code n log n} time beside the search. */
    public String replace(String text, String by, boolean isEach) {
        StringBuilder result = new StringBuilder();
        int from = 0;
        for (boolean isFound = find(text, 0); isFound; isFound = isEach && findNext(text)) {
            result.append(text.substring(from, start));
            append(result, text, by);
            from = end;
        }
        return result.append(text.substring(from, text.length())).toString();
    }

    /** Appends what is put in place of the text that was found: behind a dollar the number of a group, of which there is none but 0. */
    private void append(StringBuilder result, String text, String by) {
        int plain = 0;
        while (plain < by.length() && !isAny(by.charAt(plain), "\\$")) {
            plain++;
        }
        result.append(by.substring(0, plain));
        for (int index = plain; index < by.length(); index++) {
            char value = by.charAt(index);
            if (value != '\\' && value != '$') {
                result.append(value);
                continue;
            }
            if (++index == by.length()) {
                throw new IllegalArgumentException(value == '$' ? "Illegal group reference: group index is missing" : "character to be escaped is missing");
            }
            char next = by.charAt(index);
            if (value == '\\') {
                result.append(next);
            } else if (next == '0') {
                result.append(text.substring(start, end));
            } else if (isDigit(next)) {
                throw new IndexOutOfBoundsException(new StringBuilder().append("No group ").append(next).toString());
            } else {
                throw new IllegalArgumentException("Illegal group reference");
            }
        }
    }

    private boolean find(String text, int from) {
        for (start = from; start <= text.length(); start++) {
            end = endOf(text, 0, start, false);
            if (end >= 0) {
                return true;
            }
        }
        return false;
    }

    private boolean findNext(String text) {
        return find(text, end > start ? end : end + 1);
    }

    /** Where items from one on end in a text if they begin at a place, or -1: as many chars for each as the others allow. */
    private int endOf(String text, int item, int at, boolean isWhole) {
        if (item == size) {
            return isWhole && at < text.length() ? -1 : at;
        }
        boolean isOne = counts[item] == ONCE || counts[item] == '?';
        int next = at;
        while (next < text.length() && (next == at || !isOne) && accepts(items[item], text.charAt(next))) {
            next++;
        }
        int least = counts[item] == ONCE || counts[item] == '+' ? at + 1 : at;
        while (next >= least) {
            int found = endOf(text, item + 1, next, isWhole);
            if (found >= 0) {
                return found;
            }
            next--;
        }
        return -1;
    }

    private boolean accepts(int item, char value) {
        char first = pattern.charAt(item);
        if (first == '[') {
            boolean isOther = pattern.charAt(item + 1) == '^';
            return isIn(isOther ? item + 2 : item + 1, value) != isOther;
        }
        if (first == '\\') {
            return isOf(pattern.charAt(item + 1), value);
        }
        return first == '.' ? !isAny(value, "\n\r\u0085\u2028\u2029") : first == value;
    }

    private boolean isIn(int at, char value) {
        boolean isFound = false;
        while (pattern.charAt(at) != ']') {
            int next = pattern.charAt(at) == '\\' ? at + 2 : at + 1;
            if (pattern.charAt(next) == '-' && pattern.charAt(next + 1) != ']') {
                isFound |= value >= pattern.charAt(next - 1) && value <= pattern.charAt(next + 1);
                next += 2;
            } else {
                isFound |= pattern.charAt(at) == '\\' ? isOf(pattern.charAt(at + 1), value) : pattern.charAt(at) == value;
            }
            at = next;
        }
        return isFound;
    }

    private static boolean isOf(char kind, char value) {
        switch (kind) {
            case 'd':
                return isDigit(value);
            case 'D':
                return !isDigit(value);
            case 's':
                return isAny(value, " \t\n\u000b\f\r");
            case 'S':
                return !isAny(value, " \t\n\u000b\f\r");
            case 'w':
                return isLetter(value) || isDigit(value) || value == '_';
            case 'W':
                return !isLetter(value) && !isDigit(value) && value != '_';
            case 't':
                return value == '\t';
            case 'n':
                return value == '\n';
            default:
                return value == kind;
        }
    }

    private static boolean isDigit(char value) {
        return value >= '0' && value <= '9';
    }

    private static boolean isLetter(char value) {
        return value >= 'a' && value <= 'z' || value >= 'A' && value <= 'Z';
    }

    private static boolean isAny(char value, String chars) {
        int index = chars.length() - 1;
        while (index >= 0 && chars.charAt(index) != value) {
            index--;
        }
        return index >= 0;
    }

    /** Where an item ends that begins at a place, without what is behind it. */
    private int behind(int at) {
        char first = pattern.charAt(at);
        if (first == '\\') {
            require(at + 1 < pattern.length());
            char kind = pattern.charAt(at + 1);
            require(isAny(kind, "dDsSwWtn") || !isLetter(kind) && !isDigit(kind));
            return at + 2;
        }
        if (first != '[') {
            require(!isAny(first, "^$|(){}?*+"));
            return at + 1;
        }
        int begin = at + 1 < pattern.length() && pattern.charAt(at + 1) == '^' ? at + 2 : at + 1;
        int next = begin;
        while (next < pattern.length() && pattern.charAt(next) != ']') {
            next = behindInSet(next);
        }
        require(next < pattern.length() && next > begin);
        return next + 1;
    }

    /** Where what begins at a place of a set ends: a char, or two with a dash between them. */
    private int behindInSet(int at) {
        char first = pattern.charAt(at);
        int next = first == '\\' ? behind(at) : at + 1;
        require(first != '[' && next < pattern.length() && (first != '&' || pattern.charAt(next) != '&'));
        if (pattern.charAt(next) != '-' || next + 1 == pattern.length() || pattern.charAt(next + 1) == ']') {
            return next;
        }
        char last = pattern.charAt(next + 1);
        require(first != '\\' && first != '-' && !isAny(last, "[&\\") && last >= first);
        return next + 2;
    }

    private void require(boolean isSo) {
        if (!isSo) {
            throw new UnsupportedOperationException(pattern);
        }
    }
}
