/** Places queens that don't attack one another. */
public class Main {
    private final int[] columns;
    private int solutions;

    Main(int size) {
        columns = new int[size];
    }

    boolean fits(int row, int column) {
        for (int other = 0; other < row; other++) {
            if (columns[other] == column || Math.abs(columns[other] - column) == row - other) {
                return false;
            }
        }
        return true;
    }

    void place(int row) {
        if (row == columns.length) {
            if (solutions++ == 0) {
                print();
            }
            return;
        }
        for (int column = 0; column < columns.length; column++) {
            if (fits(row, column)) {
                columns[row] = column;
                place(row + 1);
            }
        }
    }

    void print() {
        for (int queen : columns) {
            char[] line = new char[columns.length];
            java.util.Arrays.fill(line, '.');
            line[queen] = 'Q';
            System.out.println(line);
        }
    }

    public static void main(String[] args) {
        for (int size = 4; size <= 6; size++) {
            Main board = new Main(size);
            board.place(0);
            System.out.println(size + ": " + board.solutions);
        }
    }
}
