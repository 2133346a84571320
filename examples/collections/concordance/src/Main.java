import java.io.BufferedReader;
import java.io.IOException;
import java.io.InputStreamReader;
import java.util.Map;
import java.util.SortedSet;
import java.util.StringTokenizer;
import java.util.TreeMap;
import java.util.TreeSet;

/** An index of the input: each word with the numbers of its lines. */
public class Main {
    private final TreeMap<String, SortedSet<Integer>> index = new TreeMap<String, SortedSet<Integer>>();

    void add(String word, int line) {
        SortedSet<Integer> lines = index.get(word);
        if (lines == null) {
            lines = new TreeSet<Integer>();
            index.put(word, lines);
        }
        lines.add(line);
    }

    static String join(Iterable<Integer> numbers) {
        StringBuilder joined = new StringBuilder();
        for (int number : numbers) {
            if (joined.length() > 0) {
                joined.append(", ");
            }
            joined.append(number);
        }
        return joined.toString();
    }

    public static void main(String[] args) throws IOException {
        Main main = new Main();
        BufferedReader reader = new BufferedReader(new InputStreamReader(System.in));
        int number = 0;
        for (String line = reader.readLine(); line != null; line = reader.readLine()) {
            number++;
            StringTokenizer words = new StringTokenizer(line, " \t,.;()");
            while (words.hasMoreTokens()) {
                main.add(words.nextToken(), number);
            }
        }
        char letter = 0;
        for (Map.Entry<String, SortedSet<Integer>> entry : main.index.entrySet()) {
            char first = Character.toUpperCase(entry.getKey().charAt(0));
            if (first != letter) {
                letter = first;
                System.out.println("[" + letter + "]");
            }
            System.out.println("  " + entry.getKey() + " " + join(entry.getValue()));
        }
        System.out.println("after p: " + main.index.tailMap("p").size() + " words, the first " + main.index.tailMap("p").firstKey());
        SortedSet<Integer> lines = main.index.get("a");
        System.out.println("a is first in " + lines.first().intValue() + ", last in " + lines.last().intValue() + ", " + lines.headSet(4).size() + " times before 4");
    }
}
