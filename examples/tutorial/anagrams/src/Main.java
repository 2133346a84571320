import java.util.ArrayList;
import java.util.Arrays;
import java.util.List;
import java.util.Map;
import java.util.TreeMap;

/** Groups words of the same letters. */
public class Main {
    static String key(String word) {
        char[] letters = new char[word.length()];
        for (int i = 0; i < letters.length; i++) {
            letters[i] = Character.toLowerCase(word.charAt(i));
        }
        Arrays.sort(letters);
        StringBuilder key = new StringBuilder();
        for (char letter : letters) {
            key.append(letter);
        }
        return key.toString();
    }

    public static void main(String[] args) {
        String[] words = {"listen", "Silent", "enlist", "google", "elbow", "below", "banana", "inlets", "bowel"};
        Map<String, List<String>> groups = new TreeMap<String, List<String>>();
        for (String word : words) {
            List<String> group = groups.get(key(word));
            if (group == null) {
                group = new ArrayList<String>();
                groups.put(key(word), group);
            }
            group.add(word);
        }
        for (List<String> group : groups.values()) {
            System.out.println(group.size() + ": " + group.toString());
        }
    }
}
