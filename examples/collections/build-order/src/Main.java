import java.util.ArrayList;
import java.util.HashSet;
import java.util.List;
import java.util.Map;
import java.util.Set;
import java.util.StringTokenizer;
import java.util.TreeMap;

/** In which order things are built, each after what it needs; a cycle is reported. */
public class Main {
    static class CycleException extends RuntimeException {
        CycleException(String name) {
            super(name + " needs itself");
        }
    }

    private final Map<String, List<String>> needs = new TreeMap<String, List<String>>();

    /** Reads `thing: needed needed ..`. */
    Main rule(String line) {
        StringTokenizer names = new StringTokenizer(line, ": ");
        List<String> needed = new ArrayList<String>();
        String thing = names.nextToken();
        while (names.hasMoreTokens()) {
            needed.add(names.nextToken());
        }
        needs.put(thing, needed);
        return this;
    }

    List<String> order() {
        List<String> built = new ArrayList<String>();
        for (String thing : needs.keySet()) {
            build(thing, built, new HashSet<String>());
        }
        return built;
    }

    private void build(String thing, List<String> built, Set<String> begun) {
        if (built.contains(thing)) {
            return;
        }
        if (!begun.add(thing)) {
            throw new CycleException(thing);
        }
        if (needs.containsKey(thing)) {
            for (String needed : needs.get(thing)) {
                build(needed, built, begun);
            }
        }
        built.add(thing);
    }

    public static void main(String[] args) {
        Main house = new Main().rule("roof: walls beams").rule("walls: floor bricks").rule("paint: walls roof").rule("floor: ground").rule("beams: wood");
        int number = 0;
        for (String thing : house.order()) {
            System.out.println(++number + ". " + thing);
        }
        house.rule("wood: tree").rule("tree: seed").rule("seed: tree");
        try {
            house.order();
        } catch (CycleException e) {
            System.out.println(e.getMessage());
        }
        Main chain = new Main();
        for (int i = 0; i < 40; i++) {
            chain.rule("step" + i + ": step" + (i + 1));
        }
        List<String> order = chain.order();
        System.out.println(order.size() + " steps, first " + order.get(0) + ", last " + order.get(order.size() - 1));
    }
}
