import java.util.EmptyStackException;
import java.util.Stack;
import java.util.StringTokenizer;

/** A calculator on a stack: numbers are pushed, operators take two of them. */
public class Main {
    static int apply(char operator, int left, int right) {
        switch (operator) {
            case '+':
                return left + right;
            case '-':
                return left - right;
            case '*':
                return left * right;
            case '/':
                return left / right;
            default:
                throw new IllegalArgumentException("operator " + operator);
        }
    }

    static boolean isNumber(String token) {
        return Character.isDigit(token.charAt(token.length() - 1));
    }

    static int evaluate(String expression) {
        Stack<Integer> stack = new Stack<Integer>();
        StringTokenizer tokens = new StringTokenizer(expression);
        while (tokens.hasMoreTokens()) {
            String token = tokens.nextToken();
            if (isNumber(token)) {
                stack.push(Integer.parseInt(token));
            } else {
                int right = stack.pop();
                int left = stack.pop();
                stack.push(apply(token.charAt(0), left, right));
            }
        }
        int result = stack.pop();
        if (!stack.empty()) {
            throw new IllegalStateException(stack.size() + " numbers too many");
        }
        return result;
    }

    public static void main(String[] args) {
        String[] expressions = {"1 2 +", "3 4 * 5 -", "2 3 + 4 5 + *", "-7 2 /", "100 7 8 * - 3 /", "1 0 /", "1 +", "1 2 3 +", "4 5 %"};
        for (String expression : expressions) {
            try {
                System.out.println(expression + " = " + evaluate(expression));
            } catch (ArithmeticException e) {
                System.out.println(expression + ": division by zero");
            } catch (EmptyStackException e) {
                System.out.println(expression + ": a number is missing");
            } catch (RuntimeException e) {
                System.out.println(expression + ": " + e.getMessage());
            }
        }
    }
}
