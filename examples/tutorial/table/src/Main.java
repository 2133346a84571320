import java.io.BufferedReader;
import java.io.IOException;
import java.io.InputStreamReader;
import java.util.ArrayList;
import java.util.List;
import java.util.StringTokenizer;

/** Reads a table with commas, and sums its columns. */
public class Main {
    public static void main(String[] args) throws IOException {
        BufferedReader in = new BufferedReader(new InputStreamReader(System.in));
        List<String> names = new ArrayList<String>();
        StringTokenizer head = new StringTokenizer(in.readLine(), ",");
        while (head.hasMoreTokens()) {
            names.add(head.nextToken());
        }
        long[] sums = new long[names.size()];
        int rows = 0;
        String line;
        while ((line = in.readLine()) != null) {
            StringTokenizer cells = new StringTokenizer(line, ",");
            for (int column = 0; cells.hasMoreTokens(); column++) {
                sums[column] += Long.parseLong(cells.nextToken());
            }
            rows++;
        }
        for (int column = 0; column < sums.length; column++) {
            System.out.println(names.get(column) + ": " + sums[column] + " in " + rows + " rows");
        }
    }
}
