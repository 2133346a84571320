/** Backtracking: queens on a board, the ways of a knight, and subsets of a sum, over arrays and static methods. */
public class Main {
    private static int[] columns;
    private static boolean[] taken;
    private static boolean[] rising;
    private static boolean[] falling;
    private static int placements;
    private static int mixed;

    private static int queens(int size) {
        columns = new int[size];
        taken = new boolean[size];
        rising = new boolean[2 * size];
        falling = new boolean[2 * size];
        placements = 0;
        place(0, size);
        return placements;
    }

    private static boolean isFree(int row, int column, int size) {
        return !taken[column] && !rising[row + column] && !falling[row - column + size];
    }

    private static void mark(int row, int column, int size, boolean value) {
        taken[column] = value;
        rising[row + column] = value;
        falling[row - column + size] = value;
    }

    private static void place(int row, int size) {
        if (row == size) {
            placements++;
            for (int i = 0; i < size; i++) {
                mixed = mixed * 31 + columns[i];
            }
            return;
        }
        for (int column = 0; column < size; column++) {
            if (isFree(row, column, size)) {
                columns[row] = column;
                mark(row, column, size, true);
                place(row + 1, size);
                mark(row, column, size, false);
            }
        }
    }

    private static final int[] DOWN = {1, 2, 2, 1, -1, -2, -2, -1};
    private static final int[] RIGHT = {2, 1, -1, -2, -2, -1, 1, 2};

    private static long ways(int[][] board, int row, int column, int left) {
        if (row < 0 || row >= board.length || column < 0 || column >= board[row].length || board[row][column] != 0) {
            return 0;
        }
        if (left == 1) {
            return 1;
        }
        board[row][column] = left;
        long ways = 0;
        for (int i = 0; i < DOWN.length; i++) {
            ways += ways(board, row + DOWN[i], column + RIGHT[i], left - 1);
        }
        board[row][column] = 0;
        return ways;
    }

    private static int subsets(int[] numbers, int from, int sum) {
        if (sum == 0) {
            return 1;
        }
        if (from == numbers.length || sum < 0) {
            return 0;
        }
        return subsets(numbers, from + 1, sum) + subsets(numbers, from + 1, sum - numbers[from]);
    }

    public static void main(String[] arguments) {
        for (int size = 4; size <= 9; size++) {
            System.out.println(size + ": " + queens(size));
        }
        System.out.println(mixed);
        System.out.println(ways(new int[5][5], 0, 0, 25));
        int[] numbers = new int[20];
        for (int i = 0; i < numbers.length; i++) {
            numbers[i] = 3 + i * i % 29;
        }
        System.out.println(subsets(numbers, 0, 120));
    }
}
