import java.util.Arrays;

/** Copies of arrays, shallow and deep. */
public class Main {
    static int[][] deepCopy(int[][] rows) {
        int[][] copy = rows.clone();
        for (int i = 0; i < copy.length; i++) {
            copy[i] = rows[i].clone();
        }
        return copy;
    }

    public static void main(String[] args) {
        int[] numbers = {3, 1, 2};
        int[] alias = numbers;
        int[] copy = numbers.clone();
        Arrays.sort(copy);
        numbers[0] = 9;
        System.out.println(Arrays.toString(numbers) + " " + Arrays.toString(alias) + " " + Arrays.toString(copy));
        int[][] grid = {{1, 2}, {3}, {}};
        int[][] shallow = grid.clone();
        int[][] deep = deepCopy(grid);
        grid[0][0] = 7;
        grid[2] = new int[] {8};
        System.out.println(Arrays.deepToString(grid) + " " + Arrays.deepToString(shallow) + " " + Arrays.deepToString(deep));
        String[] words = {"a", "b"};
        String[] same = words.clone();
        System.out.println((words == same) + " " + Arrays.equals(words, same) + " " + same.length);
        char[] letters = "hello".toCharArray();
        char[] more = new char[8];
        Arrays.fill(more, '-');
        System.arraycopy(letters, 1, more, 2, 4);
        System.out.println(String.valueOf(more) + " " + String.valueOf(letters.clone(), 0, 2));
    }
}
