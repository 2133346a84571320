import java.util.ArrayDeque;
import java.util.ArrayList;
import java.util.BitSet;
import java.util.HashMap;
import java.util.List;
import java.util.Map;
import java.util.Queue;
import java.util.Random;

/** Digs a maze at random with a seed, and walks it by breadth first. */
public class Main {
    private static final int[] STEPS_X = {1, 0, -1, 0};
    private static final int[] STEPS_Y = {0, 1, 0, -1};
    private final int width;
    private final int height;
    private final BitSet open = new BitSet();

    Main(int width, int height, Random random) {
        this.width = width;
        this.height = height;
        dig(1, 1, random);
    }

    private int place(int x, int y) {
        return y * width + x;
    }

    private void dig(int x, int y, Random random) {
        open.set(place(x, y));
        List<Integer> directions = new ArrayList<Integer>();
        for (int direction = 0; direction < 4; direction++) {
            directions.add(random.nextInt(directions.size() + 1), direction);
        }
        for (int direction : directions) {
            int nextX = x + 2 * STEPS_X[direction];
            int nextY = y + 2 * STEPS_Y[direction];
            if (nextX > 0 && nextX < width && nextY > 0 && nextY < height && !open.get(place(nextX, nextY))) {
                open.set(place(x + STEPS_X[direction], y + STEPS_Y[direction]));
                dig(nextX, nextY, random);
            }
        }
    }

    /** The places of the shortest way, from its end. */
    List<Integer> way(int start, int end) {
        Map<Integer, Integer> before = new HashMap<Integer, Integer>();
        Queue<Integer> queue = new ArrayDeque<Integer>();
        before.put(start, start);
        queue.add(start);
        while (!queue.isEmpty() && !before.containsKey(end)) {
            int place = queue.remove();
            for (int direction = 0; direction < 4; direction++) {
                int next = place + place(STEPS_X[direction], STEPS_Y[direction]);
                if (open.get(next) && !before.containsKey(next)) {
                    before.put(next, place);
                    queue.add(next);
                }
            }
        }
        List<Integer> way = new ArrayList<Integer>();
        for (int place = end; place != start; place = before.get(place)) {
            way.add(place);
        }
        way.add(start);
        return way;
    }

    void print(List<Integer> way) {
        for (int y = 0; y < height; y++) {
            StringBuilder row = new StringBuilder();
            for (int x = 0; x < width; x++) {
                row.append(!open.get(place(x, y)) ? '#' : way.contains(place(x, y)) ? '.' : ' ');
            }
            System.out.println(row.toString());
        }
    }

    public static void main(String[] args) {
        Main maze = new Main(31, 15, new Random(2005));
        List<Integer> way = maze.way(maze.place(1, 1), maze.place(29, 13));
        maze.print(way);
        System.out.println(way.size() + " steps, " + maze.open.cardinality() + " open places");
    }
}
