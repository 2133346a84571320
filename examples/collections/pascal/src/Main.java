import java.util.ArrayList;
import java.util.List;

/** Pascal's triangle as a list of lists. */
public class Main {
    static List<Integer> next(List<Integer> row) {
        List<Integer> next = new ArrayList<Integer>();
        int before = 0;
        for (int number : row) {
            next.add(before + number);
            before = number;
        }
        next.add(before);
        return next;
    }

    static List<List<Integer>> triangle(int height) {
        List<List<Integer>> rows = new ArrayList<List<Integer>>();
        List<Integer> row = new ArrayList<Integer>();
        row.add(1);
        for (int i = 0; i < height; i++) {
            rows.add(row);
            row = next(row);
        }
        return rows;
    }

    static String padded(int number, int width) {
        String text = Integer.toString(number);
        StringBuilder padded = new StringBuilder();
        for (int i = text.length(); i < width; i++) {
            padded.append(' ');
        }
        return padded.append(text).toString();
    }

    public static void main(String[] args) {
        List<List<Integer>> triangle = triangle(13);
        for (List<Integer> row : triangle) {
            StringBuilder line = new StringBuilder();
            for (int i = row.size(); i < triangle.size(); i++) {
                line.append("  ");
            }
            for (int number : row) {
                line.append(padded(number, 4));
            }
            System.out.println(line.toString());
        }
        for (List<Integer> row : triangle) {
            int sum = 0;
            for (int number : row) {
                sum += number;
            }
            System.out.print(sum + " ");
        }
        System.out.println();
    }
}
