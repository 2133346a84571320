import java.util.Arrays;

/** A square matrix of the numbers among the arguments, its powers and its transpose. */
public class Main {
    private final int[][] rows;

    Main(int[][] rows) {
        this.rows = rows;
    }

    static Main parse(String[] args) {
        int size = Integer.parseInt(args[0]);
        if (args.length != 1 + size * size) {
            throw new IllegalArgumentException(size * size + " numbers are needed, not " + (args.length - 1));
        }
        int[][] rows = new int[size][size];
        for (int i = 0; i < size * size; i++) {
            rows[i / size][i % size] = Integer.parseInt(args[1 + i]);
        }
        return new Main(rows);
    }

    Main times(Main other) {
        int size = rows.length;
        int[][] product = new int[size][size];
        for (int row = 0; row < size; row++) {
            for (int column = 0; column < size; column++) {
                for (int k = 0; k < size; k++) {
                    product[row][column] += rows[row][k] * other.rows[k][column];
                }
            }
        }
        return new Main(product);
    }

    Main transposed() {
        int[][] columns = new int[rows.length][rows.length];
        for (int row = 0; row < rows.length; row++) {
            for (int column = 0; column < rows.length; column++) {
                columns[column][row] = rows[row][column];
            }
        }
        return new Main(columns);
    }

    void print(String title) {
        System.out.println(title);
        for (int[] row : rows) {
            System.out.println("  " + Arrays.toString(row));
        }
    }

    public static void main(String[] args) {
        Main matrix = parse(args);
        matrix.print("matrix");
        Main power = matrix;
        for (int exponent = 2; exponent <= 5; exponent++) {
            power = power.times(matrix);
            power.print("power " + exponent);
        }
        matrix.transposed().print("transposed");
        try {
            parse(new String[] {"1", "2x"});
        } catch (NumberFormatException e) {
            System.out.println("refused: " + e.getMessage());
        }
        try {
            parse(new String[] {"2", "1"});
        } catch (IllegalArgumentException e) {
            System.out.println("refused: " + e.getMessage());
        }
    }
}
