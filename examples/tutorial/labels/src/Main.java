/** Loops with labels. */
public class Main {
    public static void main(String[] args) {
        int[][] rows = {{4, 8, 15}, {16, -1, 23}, {42, 7}};
        int found = 0;
        search:
        for (int i = 0; i < rows.length; i++) {
            for (int j = 0; j < rows[i].length; j++) {
                if (rows[i][j] < 0) {
                    System.out.println("negative at " + i + ", " + j);
                    break search;
                }
                found += rows[i][j];
            }
        }
        System.out.println("sum before it " + found);

        StringBuilder primes = new StringBuilder();
        next:
        for (int n = 2; n < 60; n++) {
            for (int d = 2; d * d <= n; d++) {
                if (n % d == 0) {
                    continue next;
                }
            }
            primes.append(n).append(' ');
        }
        System.out.println(primes.toString().trim());

        int turns = 0;
        outer:
        do {
            int i = 0;
            while (true) {
                turns++;
                if (++i > turns / 3) {
                    continue outer;
                }
                if (turns > 40) {
                    break outer;
                }
            }
        } while (turns < 100);
        System.out.println(turns);

        block: {
            if (turns > 10) {
                break block;
            }
            System.out.println("never printed");
        }
    }
}
