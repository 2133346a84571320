import java.util.HashMap;
import java.util.Map;
import java.util.Scanner;
import java.util.TreeMap;

/** Counts the words of the input, and lists them in their order. */
public class Main {
    public static void main(String[] args) {
        Map<String, Integer> counts = new HashMap<String, Integer>();
        Scanner in = new Scanner(System.in);
        while (in.hasNext()) {
            String word = in.next();
            Integer old = counts.get(word);
            counts.put(word, old == null ? 1 : old + 1);
        }
        for (Map.Entry<String, Integer> each : new TreeMap<String, Integer>(counts).entrySet()) {
            System.out.println(each.getKey() + ": " + each.getValue().intValue());
        }
        System.out.println(counts.size() + " words");
    }
}
