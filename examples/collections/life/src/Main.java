import java.util.HashMap;
import java.util.HashSet;
import java.util.Map;
import java.util.Set;

/** Conway's game of life on a plane without borders: a set of living cells. */
public class Main {
    static final class Cell {
        final int x;
        final int y;

        Cell(int x, int y) {
            this.x = x;
            this.y = y;
        }

        @Override
        public boolean equals(Object other) {
            return other instanceof Cell && ((Cell) other).x == x && ((Cell) other).y == y;
        }

        @Override
        public int hashCode() {
            return 31 * x + y;
        }
    }

    static Set<Cell> parse(String... rows) {
        Set<Cell> living = new HashSet<Cell>();
        for (int y = 0; y < rows.length; y++) {
            for (int x = 0; x < rows[y].length(); x++) {
                if (rows[y].charAt(x) == '#') {
                    living.add(new Cell(x, y));
                }
            }
        }
        return living;
    }

    static Set<Cell> next(Set<Cell> living) {
        Map<Cell, Integer> neighbours = new HashMap<Cell, Integer>();
        for (Cell cell : living) {
            for (int x = cell.x - 1; x <= cell.x + 1; x++) {
                for (int y = cell.y - 1; y <= cell.y + 1; y++) {
                    if (x != cell.x || y != cell.y) {
                        Cell neighbour = new Cell(x, y);
                        Integer count = neighbours.get(neighbour);
                        neighbours.put(neighbour, count == null ? 1 : count + 1);
                    }
                }
            }
        }
        Set<Cell> next = new HashSet<Cell>();
        for (Map.Entry<Cell, Integer> entry : neighbours.entrySet()) {
            int count = entry.getValue();
            if (count == 3 || count == 2 && living.contains(entry.getKey())) {
                next.add(entry.getKey());
            }
        }
        return next;
    }

    static void print(Set<Cell> living, int width, int height) {
        for (int y = 0; y < height; y++) {
            StringBuilder row = new StringBuilder();
            for (int x = 0; x < width; x++) {
                row.append(living.contains(new Cell(x, y)) ? '#' : '.');
            }
            System.out.println(row.toString());
        }
        System.out.println(living.size() + " alive");
    }

    public static void main(String[] args) {
        Set<Cell> glider = parse(".#", "..#", "###");
        print(glider, 8, 4);
        for (int i = 0; i < 12; i++) {
            glider = next(glider);
        }
        print(glider, 8, 7);
        Set<Cell> pentomino = parse(".##", "##.", ".#.");
        for (int generation = 1; generation <= 60; generation++) {
            pentomino = next(pentomino);
            if (generation % 20 == 0) {
                System.out.println("generation " + generation + ": " + pentomino.size());
            }
        }
    }
}
