import java.util.Map;
import java.util.Scanner;
import java.util.TreeMap;

/** Counts words, by methods of texts. */
public class Main {
    public static void main(String[] args) {
        Scanner scanner = new Scanner(System.in);
        Map<String, Integer> counts = new TreeMap<String, Integer>();
        while (scanner.hasNextLine()) {
            String line = scanner.nextLine().trim();
            if (line.isEmpty() || line.startsWith("#")) {
                continue;
            }
            for (String word : line.toLowerCase().split(" ")) {
                int count = counts.containsKey(word) ? counts.get(word) : 0;
                counts.put(word, count + 1);
            }
        }
        for (String word : counts.keySet()) {
            int count = counts.get(word);
            System.out.println(word.toUpperCase() + " " + count + (word.contains("ea") ? " with ea at " + word.indexOf("ea") : ""));
        }
    }
}
