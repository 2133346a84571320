import java.util.Arrays;

/** Products of matrices. */
public class Main {
    static int[][] product(int[][] left, int[][] right) {
        int[][] result = new int[left.length][right[0].length];
        for (int i = 0; i < left.length; i++) {
            for (int j = 0; j < right[0].length; j++) {
                for (int k = 0; k < right.length; k++) {
                    result[i][j] += left[i][k] * right[k][j];
                }
            }
        }
        return result;
    }

    public static void main(String[] args) {
        int[][] step = {{1, 1}, {1, 0}};
        int[][] power = {{1, 0}, {0, 1}};
        for (int i = 1; i <= 12; i++) {
            power = product(power, step);
            if (i % 4 == 0) {
                System.out.println(i + ": " + Arrays.deepToString(power));
            }
        }
        System.out.println(Arrays.equals(power[0], new int[] {233, 144}));
    }
}
