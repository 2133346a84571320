/** Texts in which equal characters are counted, and back. */
public class Main {
    static String packed(String text) {
        StringBuilder result = new StringBuilder();
        int i = 0;
        while (i < text.length()) {
            int from = i;
            do {
                i++;
            } while (i < text.length() && text.charAt(i) == text.charAt(from));
            if (i - from > 1) {
                result.append(i - from);
            }
            result.append(text.charAt(from));
        }
        return result.toString();
    }

    static String unpacked(String text) {
        StringBuilder result = new StringBuilder();
        int count = 0;
        for (char c : text.toCharArray()) {
            if (Character.isDigit(c)) {
                count = 10 * count + Character.digit(c, 10);
            } else {
                for (int i = 0; i < Math.max(1, count); i++) {
                    result.append(c);
                }
                count = 0;
            }
        }
        return result.toString();
    }

    public static void main(String[] args) {
        for (String text : new String[] {"", "x", "aaabccddddddddddddde", "abcabc"}) {
            String packed = packed(text);
            System.out.println("'" + packed + "' " + unpacked(packed).equals(text));
        }
    }
}
