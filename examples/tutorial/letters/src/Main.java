/** Counts kinds of letters with chars as numbers. */
public class Main {
    static char rotated(char c, int by) {
        if (c >= 'a' && c <= 'z') {
            return (char) ((c - 'a' + by) % 26 + 'a');
        }
        return c;
    }

    public static void main(String[] args) {
        String text = "the five boxing wizards jump quickly";
        int[] counts = new int[26];
        int vowels = 0;
        for (int i = 0; i < text.length(); i++) {
            char c = text.charAt(i);
            switch (c) {
                case 'a': case 'e': case 'i': case 'o': case 'u':
                    vowels++;
                case 'b': case 'c': case 'd': case 'f': case 'g': case 'h': case 'j': case 'k':
                case 'l': case 'm': case 'n': case 'p': case 'q': case 'r': case 's': case 't':
                case 'v': case 'w': case 'x': case 'y': case 'z':
                    counts[c - 'a']++;
                    break;
                case ' ':
                    break;
                default:
                    System.out.println("what is " + c);
            }
        }
        System.out.println(vowels + " vowels");
        for (char c = 'a'; c <= 'z'; c++) {
            if (counts[c - 'a'] > 2) {
                System.out.println(c + " " + counts[c - 'a']);
            }
        }
        String secret = "";
        for (char c : "veni vidi".toCharArray()) {
            secret += rotated(c, 13);
        }
        System.out.println(secret);
        char c = 'x';
        c++;
        c += 1;
        System.out.println(c + " " + (int) c + " " + (c + 1) + " " + (char) (c - 32) + " " + '\u0041' + (char) 98);
        System.out.println(Character.isUpperCase('Q') + " " + Character.toLowerCase('Q') + " " + Character.getNumericValue('7') + " " + Character.isLetterOrDigit('_'));
    }
}
