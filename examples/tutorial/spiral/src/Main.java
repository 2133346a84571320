/** Numbers in a spiral, and a magic square. */
public class Main {
    static int[][] spiral(int rows, int columns) {
        int[][] grid = new int[rows][columns];
        int top = 0;
        int left = 0;
        int bottom = rows - 1;
        int right = columns - 1;
        int next = 1;
        while (top <= bottom && left <= right) {
            for (int i = left; i <= right; i++) grid[top][i] = next++;
            for (int i = ++top; i <= bottom; i++) grid[i][right] = next++;
            right--;
            if (top <= bottom) {
                for (int i = right; i >= left; i--) grid[bottom][i] = next++;
                bottom--;
            }
            if (left <= right) {
                for (int i = bottom; i >= top; i--) grid[i][left] = next++;
                left++;
            }
        }
        return grid;
    }

    static int[][] magic(int size) {
        int[][] square = new int[size][size];
        for (int i = 0, row = 0, column = size / 2; i < size * size; i++) {
            square[row][column] = i + 1;
            int up = (row + size - 1) % size;
            int on = (column + 1) % size;
            if (square[up][on] == 0) {
                row = up;
                column = on;
            } else {
                row = (row + 1) % size;
            }
        }
        return square;
    }

    static void print(int[][] grid) {
        for (int[] row : grid) {
            String line = "";
            for (int value : row) {
                line += (value < 10 ? "  " : " ") + value;
            }
            System.out.println(line);
        }
    }

    public static void main(String[] args) {
        print(spiral(4, 5));
        int[][] square = magic(5);
        print(square);
        int diagonal = 0;
        for (int i = 0; i < square.length; i++) {
            diagonal += square[i][i];
        }
        System.out.println(diagonal);
    }
}
