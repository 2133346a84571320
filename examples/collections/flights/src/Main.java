import java.util.ArrayList;
import java.util.HashMap;
import java.util.LinkedList;
import java.util.List;
import java.util.Map;
import java.util.Queue;
import java.util.Set;
import java.util.TreeSet;

/** A network of flights: which towns can be reached, with how many flights, and by which way. */
public class Main {
    private final Map<String, Set<String>> flights = new HashMap<String, Set<String>>();

    void connect(String one, String other) {
        from(one).add(other);
        from(other).add(one);
    }

    Set<String> from(String town) {
        Set<String> towns = flights.get(town);
        if (towns == null) {
            towns = new TreeSet<String>();
            flights.put(town, towns);
        }
        return towns;
    }

    /** The town before each town that can be reached, on a shortest way. */
    Map<String, String> search(String start) {
        Map<String, String> before = new HashMap<String, String>();
        Queue<String> waiting = new LinkedList<String>();
        before.put(start, null);
        waiting.add(start);
        while (!waiting.isEmpty()) {
            String town = waiting.remove();
            for (String next : from(town)) {
                if (!before.containsKey(next)) {
                    before.put(next, town);
                    waiting.add(next);
                }
            }
        }
        return before;
    }

    List<String> way(String start, String end) {
        Map<String, String> before = search(start);
        LinkedList<String> way = new LinkedList<String>();
        if (before.containsKey(end)) {
            for (String town = end; town != null; town = before.get(town)) {
                way.addFirst(town);
            }
        }
        return way;
    }

    public static void main(String[] args) {
        Main network = new Main();
        String[] pairs = {"Oslo", "Bergen", "Oslo", "Rome", "Rome", "Cairo", "Cairo", "Lagos", "Bergen", "Leeds", "Leeds", "Rome", "Lagos", "Quito", "Nome", "Sitka"};
        for (int i = 0; i < pairs.length; i += 2) {
            network.connect(pairs[i], pairs[i + 1]);
        }
        List<String> towns = new ArrayList<String>(new TreeSet<String>(network.flights.keySet()));
        for (String town : towns) {
            List<String> way = network.way("Bergen", town);
            System.out.println(town + ": " + (way.isEmpty() ? "no way" : way.size() - 1 + " flights, " + way.toString()));
        }
        int most = 0;
        for (String one : towns) {
            for (String other : towns) {
                most = Math.max(most, network.way(one, other).size() - 1);
            }
        }
        System.out.println("at most " + most);
    }
}
