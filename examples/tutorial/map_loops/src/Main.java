import java.util.Arrays;
import java.util.HashMap;
import java.util.Iterator;
import java.util.List;
import java.util.Map;
import java.util.TreeMap;

/** Ways through a map, and changes on the way. */
public class Main {
    public static void main(String[] args) {
        List<String> words = Arrays.asList("one two three two one two four".split(" "));
        Map<String, Integer> counts = new HashMap<String, Integer>();
        for (String word : words) {
            Integer count = counts.get(word);
            counts.put(word, count == null ? 1 : count + 1);
        }
        Map<String, Integer> sorted = new TreeMap<String, Integer>(counts);
        System.out.println(sorted);
        for (Iterator<Map.Entry<String, Integer>> i = sorted.entrySet().iterator(); i.hasNext();) {
            Map.Entry<String, Integer> entry = i.next();
            if (entry.getValue() == 1) {
                i.remove();
            } else {
                entry.setValue(entry.getValue() * 10);
            }
        }
        System.out.println(sorted + " " + sorted.keySet() + " " + sorted.values());
        sorted.keySet().retainAll(Arrays.asList("two", "six"));
        System.out.println(sorted.isEmpty() + " " + sorted.containsValue(30) + " " + sorted.remove("two") + " " + sorted.size());
        Map<Integer, String> byLength = new TreeMap<Integer, String>();
        for (String word : words) {
            String old = byLength.get(word.length());
            byLength.put(word.length(), old == null ? word : old + "/" + word);
        }
        for (Integer length : byLength.keySet()) {
            System.out.println(length + ": " + byLength.get(length));
        }
    }
}
