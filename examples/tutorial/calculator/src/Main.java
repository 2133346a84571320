import java.util.ArrayDeque;
import java.util.Deque;
import java.util.StringTokenizer;

/** Computes what is written behind its operands: a stack of numbers. */
public class Main {
    static int compute(String line) {
        Deque<Integer> stack = new ArrayDeque<Integer>();
        StringTokenizer parts = new StringTokenizer(line);
        while (parts.hasMoreTokens()) {
            String part = parts.nextToken();
            if (Character.isDigit(part.charAt(part.length() - 1))) {
                stack.push(Integer.parseInt(part));
                continue;
            }
            int right = stack.pop();
            int left = stack.pop();
            switch (part.charAt(0)) {
                case '+': stack.push(left + right); break;
                case '-': stack.push(left - right); break;
                case '*': stack.push(left * right); break;
                case '/': stack.push(left / right); break;
                default: throw new IllegalArgumentException("unknown: " + part);
            }
        }
        return stack.pop();
    }

    public static void main(String[] args) {
        String[] lines = {"3 4 +", "5 1 2 + 4 * + 3 -", "-7 2 *", "1 0 /", "2 3 ^"};
        for (String line : lines) {
            try {
                System.out.println(line + " = " + compute(line));
            } catch (ArithmeticException e) {
                System.out.println(line + ": division by zero");
            } catch (IllegalArgumentException e) {
                System.out.println(line + ": " + e.getMessage());
            }
        }
    }
}
