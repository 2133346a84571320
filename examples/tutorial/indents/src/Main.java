import java.io.BufferedReader;
import java.io.IOException;
import java.io.InputStreamReader;
import java.util.Stack;

/** Reads an indented list, and numbers it. */
public class Main {
    static int indent(String line) {
        int count = 0;
        while (count < line.length() && line.charAt(count) == ' ') {
            count++;
        }
        return count;
    }

    public static void main(String[] args) throws IOException {
        BufferedReader reader = new BufferedReader(new InputStreamReader(System.in));
        Stack<Integer> numbers = new Stack<Integer>();
        String line;
        int lines = 0;
        while ((line = reader.readLine()) != null) {
            lines++;
            if (line.trim().length() == 0) {
                continue;
            }
            int depth = indent(line) / 2;
            if (depth > numbers.size()) {
                System.out.println("line " + lines + " is too deep");
                continue;
            }
            while (numbers.size() > depth + 1) {
                numbers.pop();
            }
            if (numbers.size() == depth) {
                numbers.push(0);
            }
            numbers.push(numbers.pop() + 1);
            StringBuilder text = new StringBuilder();
            for (int number : numbers) {
                text.append(number).append('.');
            }
            System.out.println(text + " " + line.trim());
        }
        reader.close();
        System.out.println(lines + " lines");
    }
}
