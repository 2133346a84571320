/** Arrays: a sieve of primes, and a matrix that is multiplied by itself. */
public class Main {
    static int primes(int below) {
        boolean[] crossed = new boolean[below];
        int count = 0;
        for (int i = 2; i < below; i++) {
            if (!crossed[i]) {
                count++;
                for (int j = i + i; j < below; j += i) {
                    crossed[j] = true;
                }
            }
        }
        return count;
    }

    static int[][] squared(int[][] matrix) {
        int n = matrix.length;
        int[][] product = new int[n][n];
        for (int i = 0; i < n; i++) {
            for (int j = 0; j < n; j++) {
                int sum = 0;
                for (int k = 0; k < n; k++) {
                    sum += matrix[i][k] * matrix[k][j];
                }
                product[i][j] = sum % 10007;
            }
        }
        return product;
    }

    public static void main(String[] arguments) {
        System.out.println(primes(3000000));
        int n = 100;
        int[][] matrix = new int[n][n];
        for (int i = 0; i < n; i++) {
            for (int j = 0; j < n; j++) {
                matrix[i][j] = i * 7 + j + 1;
            }
        }
        for (int turn = 0; turn < 20; turn++) {
            matrix = squared(matrix);
        }
        System.out.println(matrix[17][42]);
    }
}
