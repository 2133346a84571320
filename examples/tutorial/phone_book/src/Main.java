import java.util.Map;
import java.util.SortedMap;
import java.util.TreeMap;

/** A phone book in the order of names. */
public class Main {
    public static void main(String[] args) {
        TreeMap<String, String> book = new TreeMap<String, String>();
        book.put("Meier", "044 111 22 33");
        book.put("Abt", "031 999 88 77");
        book.put("Keller", "061 555 44 33");
        book.put("Moser", "071 222 33 44");
        book.put("Abt", "031 999 88 78");
        for (Map.Entry<String, String> each : book.entrySet()) {
            System.out.println(each.getKey() + " " + each.getValue());
        }
        SortedMap<String, String> withM = book.subMap("M", "N");
        System.out.println("M: " + withM.keySet().toString());
        System.out.println("first: " + book.firstKey() + ", last: " + book.lastKey());
        System.out.println("from K on: " + book.ceilingKey("K"));
        String removed = book.remove("Keller");
        System.out.println(removed + " removed, " + (book.containsKey("Keller") ? "still" : "not") + " there");
    }
}
