package zuqelash;

/** Parts of the names of classes. */
public final class Names {
    private static final String KINDS = "ZBCSIJ";
    private static final String[] WORDS = {"boolean", "byte", "char", "short", "int", "long"};

    Names() {
    }

    /** Returns the name from {@code start} to before {@code end} without its package, the classes around it and their number, in linear time. */
    public static String simple(String name, int start, int end) {
        int begin = end;
        while (begin > start && name.charAt(begin - 1) != '.' && name.charAt(begin - 1) != '$') {
            begin--;
        }
        if (begin > start && name.charAt(begin - 1) == '$') {
            while (begin < end && isDigit(name.charAt(begin))) {
                begin++;
            }
        }
        return name.substring(begin, end);
    }

    /** Returns the simple name of an array's elements, behind as many brackets as it has dimensions, in linear time. */
    public static String element(String name, int depth) {
        for (int index = 0; index < WORDS.length; index++) {
            if (KINDS.charAt(index) == name.charAt(depth)) {
                return WORDS[index];
            }
        }
        return simple(name, depth + 1, name.length() - 1);
    }

    /** Returns the name of the class around a class that has a number for its name, and of each other class its own name, in linear time. */
    public static String named(String name) {
        int end = name.length();
        while (end > 0 && isDigit(name.charAt(end - 1))) {
            end--;
        }
        return end > 0 && end < name.length() && name.charAt(end - 1) == '$' ? name.substring(0, end - 1) : name;
    }

    /** Returns the name as a source has it, in linear time. */
    public static String canonical(String name) {
        char[] chars = new char[name.length()];
        for (int index = 0; index < chars.length; index++) {
            chars[index] = name.charAt(index) == '$' ? '.' : name.charAt(index);
        }
        return String.valueOf(chars);
    }

    private static boolean isDigit(char value) {
        return value >= '0' && value <= '9';
    }
}
