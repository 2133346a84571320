import java.util.ArrayList;
import java.util.Collections;
import java.util.Comparator;
import java.util.List;
import java.util.Map;
import java.util.TreeMap;

/** How often each letter occurs in a text: by name, and the most frequent ones first with bars. */
public class Main {
    static class ByCount implements Comparator<Map.Entry<Character, Integer>> {
        public int compare(Map.Entry<Character, Integer> one, Map.Entry<Character, Integer> other) {
            int order = other.getValue().compareTo(one.getValue());
            return order != 0 ? order : one.getKey().compareTo(other.getKey());
        }
    }

    static Map<Character, Integer> frequencies(String text) {
        Map<Character, Integer> counts = new TreeMap<Character, Integer>();
        for (int i = 0; i < text.length(); i++) {
            char letter = Character.toLowerCase(text.charAt(i));
            if (Character.isLetter(letter)) {
                counts.put(letter, counts.containsKey(letter) ? counts.get(letter) + 1 : 1);
            }
        }
        return counts;
    }

    static String bar(int length) {
        StringBuilder bar = new StringBuilder();
        for (int i = 0; i < length; i++) {
            bar.append('#');
        }
        return bar.toString();
    }

    public static void main(String[] args) {
        String text = "When the rain had gone, Hannah opened all of the windows and the smell of wet grass came in.";
        Map<Character, Integer> counts = frequencies(text);
        StringBuilder line = new StringBuilder();
        for (char letter : counts.keySet()) {
            line.append(letter);
        }
        System.out.println("letters: " + line.toString());
        List<Map.Entry<Character, Integer>> entries = new ArrayList<Map.Entry<Character, Integer>>(counts.entrySet());
        Collections.sort(entries, new ByCount());
        for (Map.Entry<Character, Integer> entry : entries) {
            int count = entry.getValue();
            char letter = entry.getKey();
            System.out.println(letter + " " + (count < 10 ? " " : "") + count + " " + bar(count));
        }
    }
}
