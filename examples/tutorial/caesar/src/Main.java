/** A cipher that moves letters. */
public class Main {
    static String moved(String text, int distance) {
        StringBuilder result = new StringBuilder();
        for (int i = 0; i < text.length(); i++) {
            char c = text.charAt(i);
            if (Character.isUpperCase(c)) {
                c = (char) ('A' + Math.floorMod(c - 'A' + distance, 26));
            } else if (Character.isLowerCase(c)) {
                c = (char) ('a' + Math.floorMod(c - 'a' + distance, 26));
            }
            result.append(c);
        }
        return result.toString();
    }

    public static void main(String[] args) {
        String text = "The quick brown fox, 12 years old.";
        String secret = moved(text, 3);
        System.out.println(secret);
        System.out.println(moved(secret, -3));
        int letters = 0;
        int digits = 0;
        int spaces = 0;
        for (int i = 0; i < text.length(); i++) {
            char c = text.charAt(i);
            letters += Character.isLetter(c) ? 1 : 0;
            digits += Character.isDigit(c) ? 1 : 0;
            spaces += Character.isWhitespace(c) ? 1 : 0;
        }
        System.out.println(letters + " letters, " + digits + " digits, " + spaces + " spaces");
    }
}
