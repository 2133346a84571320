import java.util.Arrays;

/** Sorts the letters of words by arrays of characters, and turns them round. */
public class Main {
    static String sorted(String word) {
        char[] letters = word.toCharArray();
        Arrays.sort(letters);
        return new String(letters);
    }

    public static void main(String[] args) {
        for (String word : new String[] {"listen", "silent", "banana"}) {
            System.out.println(word + " " + sorted(word) + " " + new StringBuilder(word).reverse());
        }
        System.out.println(sorted("listen").equals(sorted("silent")));
    }
}
