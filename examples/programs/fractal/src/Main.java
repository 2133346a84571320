/** The Mandelbrot set in whole numbers, three sizes, drawn in characters, with the longest orbits told. */
public class Main {
    static final int ONE = 1 << 24;
    static final String SHADES = " .:-=+*#%@";
    static long squareSum(long x, long y) { return (x * x + y * y) >> 24; }
    static int orbit(long cx, long cy, int limit) {
        long x = 0, y = 0;
        for (int n = 0; n < limit; n++) {
            if (squareSum(x, y) > 4L * ONE) return n;
            long t = ((x * x - y * y) >> 24) + cx;
            y = ((2 * x * y) >> 24) + cy;
            x = t;
        }
        return limit;
    }
    static class Picture {
        final char[][] rows;
        int longest; int longX, longY;
        long total;
        Picture(int width, int height, int limit) {
            rows = new char[height][width];
            for (int r = 0; r < height; r++) {
                char[] row = rows[r];
                for (int c = 0; c < width; c++) {
                    long cx = (long) c * 3 * ONE / width - 2L * ONE - ONE / 4;
                    long cy = (long) r * 2 * ONE / height - ONE + ONE / 64;
                    int n = orbit(cx, cy, limit);
                    total += n;
                    row[c] = n == limit ? '@' : SHADES.charAt(n * 9 / limit);
                    if (n < limit && n > longest) { longest = n; longX = c; longY = r; }
                }
            }
        }
        void print() {
            for (char[] row : rows) {
                StringBuilder line = new StringBuilder();
                int last = row.length;
                while (last > 0 && row[last - 1] == ' ') last--;
                for (int i = 0; i < last; i++) line.append(row[i]);
                System.out.println(line.toString());
            }
            System.out.println("longest " + longest + " at " + longX + "," + longY + ", total " + total);
        }
    }
    public static void main(String[] args) {
        new Picture(40, 16, 20).print();
        new Picture(64, 24, 48).print();
        Picture large = new Picture(90, 40, 100);
        System.out.println(large.longest + " " + large.total + " " + (int) large.rows[20][30]);
    }
}
