import java.io.BufferedReader;
import java.io.IOException;
import java.io.InputStreamReader;
import java.util.HashMap;
import java.util.Map;
import java.util.StringTokenizer;
import java.util.TreeMap;

/** Counts the words of the input, and prints them in their order with the lines that are longest. */
public class Main {
    static String lower(String word) {
        StringBuilder lower = new StringBuilder();
        for (int i = 0; i < word.length(); i++) {
            lower.append(Character.toLowerCase(word.charAt(i)));
        }
        return lower.toString();
    }

    static void count(Map<String, Integer> counts, String line) {
        StringTokenizer words = new StringTokenizer(line, " ,.;:!?");
        while (words.hasMoreTokens()) {
            String word = lower(words.nextToken());
            Integer before = counts.get(word);
            counts.put(word, before == null ? 1 : before + 1);
        }
    }

    public static void main(String[] args) throws IOException {
        BufferedReader reader = new BufferedReader(new InputStreamReader(System.in));
        Map<String, Integer> counts = new HashMap<String, Integer>();
        int lines = 0;
        String longest = "";
        for (String line = reader.readLine(); line != null; line = reader.readLine()) {
            count(counts, line);
            lines++;
            if (line.length() > longest.length()) {
                longest = line;
            }
        }
        int total = 0;
        for (int each : counts.values()) {
            total += each;
        }
        System.out.println(lines + " lines, " + total + " words, " + counts.size() + " different");
        System.out.println("longest: " + longest);
        for (Map.Entry<String, Integer> entry : new TreeMap<String, Integer>(counts).entrySet()) {
            int times = entry.getValue();
            if (times > 1) {
                System.out.println(entry.getKey() + " " + times);
            }
        }
    }
}
