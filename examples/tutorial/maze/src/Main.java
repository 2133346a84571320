import java.util.LinkedList;
import java.util.Queue;

/** The shortest way through a maze, by a search in breadth. */
public class Main {
    static final String[] MAZE = {
        "S.#.....", "..#.###.", ".##...#.", "....#.#.", "###.#.#.", "....#..E",
    };

    static class Place {
        final int row;
        final int column;
        final Place before;

        Place(int row, int column, Place before) {
            this.row = row;
            this.column = column;
            this.before = before;
        }
    }

    public static void main(String[] args) {
        boolean[][] seen = new boolean[MAZE.length][MAZE[0].length()];
        Queue<Place> open = new LinkedList<Place>();
        open.add(new Place(0, 0, null));
        seen[0][0] = true;
        int[][] steps = {{0, 1}, {1, 0}, {0, -1}, {-1, 0}};
        while (!open.isEmpty()) {
            Place place = open.remove();
            if (MAZE[place.row].charAt(place.column) == 'E') {
                int length = 0;
                for (Place each = place; each.before != null; each = each.before) {
                    length++;
                }
                System.out.println("the way has " + length + " steps");
                return;
            }
            for (int[] step : steps) {
                int row = place.row + step[0];
                int column = place.column + step[1];
                if (row >= 0 && row < MAZE.length && column >= 0 && column < MAZE[0].length() && !seen[row][column] && MAZE[row].charAt(column) != '#') {
                    seen[row][column] = true;
                    open.add(new Place(row, column, place));
                }
            }
        }
        System.out.println("there is no way");
    }
}
