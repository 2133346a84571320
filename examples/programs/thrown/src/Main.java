/** An own exception that passes many frames with finally blocks and leaves main. */
public class Main {
    static class Gone extends IllegalArgumentException {
        final int level;
        Gone(int level) { super("gone at " + level); this.level = level; }
    }
    static int open;
    static void down(int n) {
        open++;
        try {
            if (n == 0) throw new Gone(open);
            down(n - 1);
            System.out.println("never");
        } catch (NullPointerException e) {
            System.out.println("never caught");
        } catch (Gone g) {
            if (n % 4 == 2) { System.out.println("passed " + n + " " + g.getMessage()); throw new Gone(g.level + n); }
            throw g;
        } finally {
            open--;
            if (n % 5 == 0) System.out.println("finally " + n + " " + open);
        }
    }
    public static void main(String[] args) {
        try { down(12); } catch (UnsupportedOperationException e) { System.out.println("never"); } finally { System.out.println("open " + open); }
        System.out.println("never after");
    }
}
