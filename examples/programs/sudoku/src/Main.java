/** Fills sudoku squares that it reads, by candidates as bits and the cell with the fewest of them first, and counts solutions of one with several. */
public class Main {
    static class Contradiction extends RuntimeException { }
    private static final Contradiction NONE = new Contradiction();

    static class Board {
        private final short[] may = new short[81];
        private final byte[] set = new byte[81];
        private int open = 81;
        Board() { for (int i = 0; i < 81; i++) may[i] = 0x1FF; }
        Board(Board from) {
            for (int i = 0; i < 81; i++) { may[i] = from.may[i]; set[i] = from.set[i]; }
            open = from.open;
        }
        Board put(int at, int digit) {
            if ((may[at] & 1 << digit - 1) == 0) throw NONE;
            set[at] = (byte) digit;
            may[at] = 0;
            open--;
            int row = at / 9, column = at % 9;
            for (int i = 0; i < 9; i++) {
                strike(row * 9 + i, digit);
                strike(i * 9 + column, digit);
                strike((row / 3 * 3 + i / 3) * 9 + column / 3 * 3 + i % 3, digit);
            }
            return this;
        }
        private void strike(int at, int digit) {
            if (set[at] != 0) return;
            may[at] &= ~(1 << digit - 1);
            if (may[at] == 0) throw NONE;
        }
        int narrowest() {
            int best = -1, least = 10;
            for (int i = 0; i < 81; i++) {
                if (set[i] != 0) continue;
                int n = 0;
                for (int m = may[i]; m != 0; m &= m - 1) n++;
                if (n < least) { least = n; best = i; }
            }
            return best;
        }
    }
    static int tries;
    static Board first;
    static int solve(Board b, int limit) {
        if (b.open == 0) {
            if (first == null) first = b;
            return 1;
        }
        int at = b.narrowest(), found = 0;
        for (int d = 1; d <= 9 && found < limit; d++) {
            if ((b.may[at] >> d - 1 & 1) == 0) continue;
            tries++;
            try {
                found += solve(new Board(b).put(at, d), limit - found);
            } catch (Contradiction c) {
                continue;
            }
        }
        return found;
    }
    public static void main(String[] args) throws java.io.IOException {
        int c, puzzle = 0;
        while (true) {
            Board b = new Board();
            int at = 0;
            boolean bad = false;
            while ((c = System.in.read()) != -1 && c != '=') {
                if (c == '.') at++;
                else if (c >= '1' && c <= '9') {
                    try {
                        b.put(at++, c - '0');
                    } catch (Contradiction e) {
                        bad = true;
                    }
                }
            }
            if (at == 0) return;
            first = null;
            tries = 0;
            int n = bad ? 0 : solve(b, 5);
            System.out.println("puzzle " + ++puzzle + ": " + n + (n == 5 ? " or more" : "") + " solutions, " + tries + " tries");
            for (int i = 0; first != null && i < 81; i++) {
                System.out.print((char) ('0' + first.set[i]));
                if (i % 9 == 8) System.out.println();
            }
            if (c == -1) return;
        }
    }
}
