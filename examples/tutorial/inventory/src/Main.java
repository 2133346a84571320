import java.util.ArrayList;
import java.util.HashMap;
import java.util.List;
import java.util.Map;
import java.util.TreeSet;

/** An inventory in a map of maps. */
public class Main {
    private final Map<String, Map<String, Integer>> shelves = new HashMap<String, Map<String, Integer>>();

    void put(String shelf, String item, int count) {
        Map<String, Integer> items = shelves.get(shelf);
        if (items == null) {
            items = new HashMap<String, Integer>();
            shelves.put(shelf, items);
        }
        items.put(item, items.getOrDefault(item, 0) + count);
    }

    int count(String item) {
        int sum = 0;
        for (Map<String, Integer> items : shelves.values()) {
            if (items.containsKey(item)) {
                sum += items.get(item);
            }
        }
        return sum;
    }

    List<String> shelvesOf(String item) {
        List<String> found = new ArrayList<String>();
        for (String shelf : new TreeSet<String>(shelves.keySet())) {
            if (shelves.get(shelf).containsKey(item)) {
                found.add(shelf);
            }
        }
        return found;
    }

    public static void main(String[] args) {
        Main inventory = new Main();
        inventory.put("A1", "bolt", 100);
        inventory.put("A1", "nut", 80);
        inventory.put("B7", "bolt", 25);
        inventory.put("B7", "bolt", 5);
        inventory.put("C3", "saw", 2);
        System.out.println("bolts: " + inventory.count("bolt") + " in " + inventory.shelvesOf("bolt").toString());
        System.out.println("saws: " + inventory.count("saw") + ", hammers: " + inventory.count("hammer"));
        System.out.println(inventory.shelves.get("B7").toString());
    }
}
