import java.io.BufferedReader;
import java.io.IOException;
import java.io.InputStreamReader;

/** Adds the numbers of lines, and says which lines are none. */
public class Main {
    public static void main(String[] args) throws IOException {
        BufferedReader in = new BufferedReader(new InputStreamReader(System.in));
        int sum = 0;
        int number = 0;
        for (String line = in.readLine(); line != null; line = in.readLine()) {
            number++;
            try {
                sum += Integer.parseInt(line);
            } catch (NumberFormatException e) {
                System.out.println("line " + number + ": " + e.getMessage());
            }
        }
        System.out.println("sum " + sum + " of " + number + " lines");
    }
}
