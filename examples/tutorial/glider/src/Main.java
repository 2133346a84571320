/** The game of life on a grid that is joined at its borders. */
public class Main {
    private boolean[][] cells;

    Main(String... rows) {
        cells = new boolean[rows.length][rows[0].length()];
        for (int y = 0; y < rows.length; y++) {
            for (int x = 0; x < rows[y].length(); x++) {
                cells[y][x] = rows[y].charAt(x) == '#';
            }
        }
    }

    private int neighbours(int y, int x) {
        int count = 0;
        for (int dy = -1; dy <= 1; dy++) {
            for (int dx = -1; dx <= 1; dx++) {
                int row = (y + dy + cells.length) % cells.length;
                int column = (x + dx + cells[row].length) % cells[row].length;
                count += (dy != 0 || dx != 0) && cells[row][column] ? 1 : 0;
            }
        }
        return count;
    }

    void step() {
        boolean[][] next = new boolean[cells.length][];
        for (int y = 0; y < cells.length; y++) {
            next[y] = new boolean[cells[y].length];
            for (int x = 0; x < cells[y].length; x++) {
                int count = neighbours(y, x);
                next[y][x] = count == 3 || count == 2 && cells[y][x];
            }
        }
        cells = next;
    }

    @Override
    public String toString() {
        StringBuilder text = new StringBuilder();
        for (boolean[] row : cells) {
            for (boolean cell : row) {
                text.append(cell ? '#' : '.');
            }
            text.append('\n');
        }
        return text.toString();
    }

    public static void main(String[] args) {
        Main life = new Main(".#....", "..#...", "###...", "......", "......");
        for (int i = 0; i < 12; i++) {
            life.step();
        }
        System.out.print(life);
    }
}
