import java.util.ArrayList;
import java.util.LinkedHashMap;
import java.util.List;
import java.util.Map;

/** An order in which parts can be built that need one another. */
public class Main {
    private final Map<String, List<String>> needs = new LinkedHashMap<String, List<String>>();
    private final List<String> order = new ArrayList<String>();
    private final List<String> open = new ArrayList<String>();

    void need(String part, String other) {
        if (!needs.containsKey(part)) {
            needs.put(part, new ArrayList<String>());
        }
        if (!needs.containsKey(other)) {
            needs.put(other, new ArrayList<String>());
        }
        needs.get(part).add(other);
    }

    void build(String part) {
        if (order.contains(part)) {
            return;
        }
        if (open.contains(part)) {
            throw new IllegalStateException("circle at " + part);
        }
        open.add(part);
        for (String other : needs.get(part)) {
            build(other);
        }
        open.remove(part);
        order.add(part);
    }

    public static void main(String[] args) {
        Main parts = new Main();
        parts.need("house", "roof");
        parts.need("roof", "walls");
        parts.need("walls", "floor");
        parts.need("house", "door");
        parts.need("door", "walls");
        for (String part : parts.needs.keySet()) {
            parts.build(part);
        }
        System.out.println(parts.order.toString());
        parts.need("floor", "house");
        parts.order.clear();
        try {
            parts.build("house");
        } catch (IllegalStateException e) {
            System.out.println(e.getMessage());
        }
    }
}
