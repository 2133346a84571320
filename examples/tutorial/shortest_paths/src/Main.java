import java.util.ArrayList;
import java.util.Arrays;
import java.util.List;
import java.util.PriorityQueue;

/** Shortest paths from one town to all others. */
public class Main {
    static class Road {
        final int to;
        final int length;

        Road(int to, int length) {
            this.to = to;
            this.length = length;
        }
    }

    static class Reached implements Comparable<Reached> {
        final int town;
        final int distance;

        Reached(int town, int distance) {
            this.town = town;
            this.distance = distance;
        }

        public int compareTo(Reached other) {
            return distance - other.distance;
        }
    }

    public static void main(String[] args) {
        String[] towns = {"Aarau", "Bern", "Chur", "Davos", "Erlach", "Flims"};
        int[][] roads = {{0, 1, 80}, {0, 2, 170}, {1, 4, 40}, {2, 3, 60}, {2, 5, 20}, {3, 5, 75}, {0, 4, 95}};
        List<List<Road>> from = new ArrayList<List<Road>>();
        for (int i = 0; i < towns.length; i++) {
            from.add(new ArrayList<Road>());
        }
        for (int[] road : roads) {
            from.get(road[0]).add(new Road(road[1], road[2]));
            from.get(road[1]).add(new Road(road[0], road[2]));
        }
        int[] distances = new int[towns.length];
        Arrays.fill(distances, Integer.MAX_VALUE);
        PriorityQueue<Reached> open = new PriorityQueue<Reached>();
        open.add(new Reached(0, 0));
        while (!open.isEmpty()) {
            Reached next = open.poll();
            if (distances[next.town] <= next.distance) {
                continue;
            }
            distances[next.town] = next.distance;
            for (Road road : from.get(next.town)) {
                open.add(new Reached(road.to, next.distance + road.length));
            }
        }
        for (int i = 0; i < towns.length; i++) {
            System.out.println(towns[i] + ": " + distances[i]);
        }
    }
}
