import java.util.ArrayList;
import java.util.Arrays;
import java.util.Collections;
import java.util.Comparator;
import java.util.HashMap;
import java.util.List;
import java.util.Map;

/** Groups words that have the same letters, the largest groups first. */
public class Main {
    static String letters(String word) {
        char[] letters = new char[word.length()];
        for (int i = 0; i < letters.length; i++) {
            letters[i] = word.charAt(i);
        }
        Arrays.sort(letters);
        StringBuilder sorted = new StringBuilder();
        for (char letter : letters) {
            sorted.append(letter);
        }
        return sorted.toString();
    }

    public static void main(String[] args) {
        String[] words = {
            "listen", "stone", "tar", "notes", "silent", "rat", "onset", "art", "inlet", "enlist", "tones", "apple", "tinsel", "cat", "act", "dog",
        };
        Map<String, List<String>> groups = new HashMap<String, List<String>>();
        for (String word : words) {
            String key = letters(word);
            List<String> group = groups.get(key);
            if (group == null) {
                group = new ArrayList<String>();
                groups.put(key, group);
            }
            group.add(word);
        }
        List<List<String>> sorted = new ArrayList<List<String>>(groups.values());
        for (List<String> group : sorted) {
            Collections.sort(group);
        }
        Collections.sort(sorted, new Comparator<List<String>>() {
            public int compare(List<String> one, List<String> other) {
                int more = other.size() - one.size();
                return more != 0 ? more : one.get(0).compareTo(other.get(0));
            }
        });
        for (List<String> group : sorted) {
            StringBuilder line = new StringBuilder().append(group.size()).append(':');
            for (String word : group) {
                line.append(' ').append(word);
            }
            System.out.println(line.toString());
        }
    }
}
