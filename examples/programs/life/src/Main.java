/** Conway's Life on a torus of booleans, with a ring of past worlds by which it finds when they repeat. */
public class Main {
    interface Rule { boolean lives(boolean now, int around); }

    static class World {
        private final boolean[][] cells;
        final int width, height;
        World(int width, int height) {
            this.width = width;
            this.height = height;
            cells = new boolean[height][width];
        }
        boolean at(int x, int y) { return cells[(y + height) % height][(x + width) % width]; }
        void put(int x, int y, boolean live) { cells[(y + height) % height][(x + width) % width] = live; }
        int around(int x, int y) {
            int n = 0;
            for (int dy = -1; dy <= 1; dy++)
                for (int dx = -1; dx <= 1; dx++)
                    if ((dx | dy) != 0 && at(x + dx, y + dy)) n++;
            return n;
        }
        World next(Rule rule) {
            World w = new World(width, height);
            for (int y = 0; y < height; y++)
                for (int x = 0; x < width; x++)
                    w.put(x, y, rule.lives(at(x, y), around(x, y)));
            return w;
        }
        boolean same(World other) {
            for (int y = 0; y < height; y++)
                for (int x = 0; x < width; x++)
                    if (cells[y][x] != other.cells[y][x]) return false;
            return true;
        }
        int population() {
            int n = 0;
            for (boolean[] row : cells) for (boolean c : row) n += c ? 1 : 0;
            return n;
        }
        void draw(String from) {
            int y = 0, x = 0;
            for (int i = 0; i < from.length(); i++) {
                char c = from.charAt(i);
                if (c == '/') { y++; x = 0; } else put(x++, y, c == 'O');
            }
        }
        public String toString() {
            StringBuilder s = new StringBuilder();
            for (boolean[] row : cells) {
                for (boolean c : row) s.append(c ? 'O' : '.');
                s.append('\n');
            }
            return s.toString();
        }
    }

    static final Rule LIFE = new Rule() {
        public boolean lives(boolean now, int around) { return around == 3 || now && around == 2; }
    };
    static final Rule HIGH = new Rule() {
        public boolean lives(boolean now, int around) {
            switch (around) {
                case 2: return now;
                case 3: return true;
                case 6: return !now;
                default: return false;
            }
        }
    };

    static void run(String name, Rule rule, String from, int limit) {
        World w = new World(14, 10);
        w.draw(from);
        World[] ring = new World[8];
        for (int step = 0; step < limit; step++) {
            for (int back = 1; back < ring.length && back <= step; back++) {
                if (ring[(step - back) & 7].same(w)) {
                    System.out.println(name + ": period " + back + " at step " + step + ", " + w.population() + " live");
                    System.out.print(w.toString());
                    return;
                }
            }
            ring[step & 7] = w;
            w = w.next(rule);
        }
        System.out.println(name + ": no period below 8, " + w.population() + " live");
        System.out.print(w.toString());
    }

    public static void main(String[] args) {
        run("blinker", LIFE, "....../.OOO..", 20);
        run("glider", LIFE, ".O/..O/OOO", 40);
        run("pi", LIFE, "/////....OOO/....O.O/....O.O", 60);
        run("replicator", HIGH, "/////....OOO/...O..O/..O...O/..O..O/..OOO", 14);
        run("empty", HIGH, "", 5);
    }
}
