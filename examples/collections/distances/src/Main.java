import java.util.ArrayList;
import java.util.HashMap;
import java.util.List;
import java.util.Map;
import java.util.PriorityQueue;

/** Shortest ways in a grid of streets by Dijkstra's algorithm, with a priority queue. */
public class Main {
    static class Street {
        final int to;
        final int length;

        Street(int to, int length) {
            this.to = to;
            this.length = length;
        }
    }

    static class Reached implements Comparable<Reached> {
        final int corner;
        final int distance;

        Reached(int corner, int distance) {
            this.corner = corner;
            this.distance = distance;
        }

        public int compareTo(Reached other) {
            return distance < other.distance ? -1 : distance > other.distance ? 1 : corner - other.corner;
        }
    }

    private final List<List<Street>> streets = new ArrayList<List<Street>>();
    private final int size;

    Main(int size) {
        this.size = size;
        for (int corner = 0; corner < size * size; corner++) {
            streets.add(new ArrayList<Street>());
        }
        for (int corner = 0; corner < size * size; corner++) {
            if (corner % size < size - 1) {
                connect(corner, corner + 1);
            }
            if (corner + size < size * size) {
                connect(corner, corner + size);
            }
        }
    }

    private void connect(int one, int other) {
        int length = 1 + (one * 7 + other * 13) % 10;
        streets.get(one).add(new Street(other, length));
        streets.get(other).add(new Street(one, length));
    }

    Map<Integer, Integer> distances(int start) {
        Map<Integer, Integer> distances = new HashMap<Integer, Integer>();
        PriorityQueue<Reached> queue = new PriorityQueue<Reached>();
        queue.add(new Reached(start, 0));
        while (!queue.isEmpty()) {
            Reached nearest = queue.poll();
            if (distances.containsKey(nearest.corner)) {
                continue;
            }
            distances.put(nearest.corner, nearest.distance);
            for (Street street : streets.get(nearest.corner)) {
                queue.add(new Reached(street.to, nearest.distance + street.length));
            }
        }
        return distances;
    }

    public static void main(String[] args) {
        Main town = new Main(8);
        Map<Integer, Integer> distances = town.distances(0);
        for (int row = 0; row < town.size; row++) {
            StringBuilder line = new StringBuilder();
            for (int column = 0; column < town.size; column++) {
                int distance = distances.get(row * town.size + column);
                line.append(distance < 10 ? "  " : " ").append(distance);
            }
            System.out.println(line.toString());
        }
        int farthest = 0;
        for (int corner = 0; corner < town.size * town.size; corner += 9) {
            for (int distance : town.distances(corner).values()) {
                farthest = Math.max(farthest, distance);
            }
        }
        System.out.println("farthest from the diagonal: " + farthest);
    }
}
