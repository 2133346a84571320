/** A knight's tour by the fewest ways on, with going back, on boards of several sizes, compiled by another compiler. */
public class Main {
    private static final int[] DX = { 1, 2, 2, 1, -1, -2, -2, -1 }, DY = { -2, -1, 1, 2, 2, 1, -1, -2 };
    private final int width, height;
    private final short[][] order;
    private long tried;
    private boolean closed;
    Main(int width, int height) { this.width = width; this.height = height; order = new short[width][height]; }
    private boolean free(int x, int y) { return x >= 0 && y >= 0 && x < width && y < height && order[x][y] == 0; }
    private int ways(int x, int y) { int n = 0; for (int i = 0; i < 8; i++) if (free(x + DX[i], y + DY[i])) n++; return n; }
    boolean tour(int x, int y, int step, long limit) {
        if (++tried > limit) throw new IllegalStateException();
        order[x][y] = (short) step;
        if (step == width * height) {
            for (int i = 0; i < 8; i++) { int a = x + DX[i], b = y + DY[i]; if (a >= 0 && b >= 0 && a < width && b < height && order[a][b] == 1) closed = true; }
            return true;
        }
        int done = 0;
        for (int k = 0; k < 8; k++) {
            int best = -1, least = 9;
            for (int i = 0; i < 8; i++) {
                if ((done >> i & 1) != 0 || !free(x + DX[i], y + DY[i])) continue;
                int w = ways(x + DX[i], y + DY[i]);
                if (w < least) { least = w; best = i; }
            }
            if (best < 0) break;
            done |= 1 << best;
            if (tour(x + DX[best], y + DY[best], step + 1, limit)) return true;
        }
        order[x][y] = 0;
        return false;
    }
    void print() {
        for (int y = 0; y < height; y++) {
            for (int x = 0; x < width; x++) { int n = order[x][y]; System.out.print(n < 10 ? "  " : " "); System.out.print(n); }
            System.out.println();
        }
    }
    public static void main(String[] args) {
        int[][] sizes = { { 5, 5 }, { 8, 8 }, { 3, 10 }, { 4, 4 }, { 1, 1 }, { 3, 4 }, { 12, 7 } };
        for (int i = 0; i < sizes.length; i++) {
            Main m = new Main(sizes[i][0], sizes[i][1]);
            System.out.print(m.width);
            System.out.print('x');
            System.out.print(m.height);
            try {
                boolean found = m.tour(0, 0, 1, 20000L);
                System.out.print(found ? m.closed ? " closed " : " open " : " none ");
                System.out.println(m.tried);
                if (found && i < 3) m.print();
            } catch (IllegalStateException e) {
                System.out.println(" given up");
            }
        }
    }
}
