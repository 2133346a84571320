import java.util.HashMap;
import java.util.Map;

/** Joins a text with boxes that come out of a map. */
public class Main {
    public static void main(String[] args) {
        Map<String, Integer> ages = new HashMap<String, Integer>();
        ages.put("Ada", 36);
        ages.put("Ben", 41);
        for (Map.Entry<String, Integer> entry : ages.entrySet()) {
            System.out.println(entry.getKey() + " is " + entry.getValue());
        }
        System.out.println("Cleo is " + ages.get("Cleo"));
    }
}
