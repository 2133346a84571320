/** The table of multiplication. */
public class Main {
    public static void main(String[] args) {
        final int size = 9;
        System.out.print("   |");
        for (int i = 1; i <= size; i++) {
            System.out.printf("%4d", i);
        }
        System.out.println();
        for (int i = 0; i < 4 + 4 * size; i++) {
            System.out.print(i == 3 ? '+' : '-');
        }
        System.out.println();
        for (int row = 1; row <= size; row++) {
            System.out.printf("%2d |", row);
            for (int column = 1; column <= size; column++) {
                System.out.printf("%4d", row * column);
            }
            System.out.println();
        }
    }
}
