import java.util.ArrayDeque;
import java.util.ArrayList;
import java.util.Deque;
import java.util.HashMap;
import java.util.List;
import java.util.Map;
import java.util.StringTokenizer;

/** Expressions turned into reverse Polish notation, and evaluated. */
public class Main {
    private static final Map<String, Integer> STRENGTH = new HashMap<String, Integer>();

    static {
        STRENGTH.put("+", 1);
        STRENGTH.put("-", 1);
        STRENGTH.put("*", 2);
        STRENGTH.put("/", 2);
    }

    static List<String> postfix(String expression) {
        List<String> output = new ArrayList<String>();
        Deque<String> operators = new ArrayDeque<String>();
        StringTokenizer tokens = new StringTokenizer(expression, " +-*/()", true);
        while (tokens.hasMoreTokens()) {
            String token = tokens.nextToken();
            if (token.equals(" ")) {
                continue;
            }
            if (token.equals("(")) {
                operators.push(token);
            } else if (token.equals(")")) {
                while (!operators.peek().equals("(")) {
                    output.add(operators.pop());
                }
                operators.pop();
            } else if (STRENGTH.containsKey(token)) {
                while (!operators.isEmpty() && binds(operators.peek(), token)) {
                    output.add(operators.pop());
                }
                operators.push(token);
            } else {
                output.add(token);
            }
        }
        while (!operators.isEmpty()) {
            output.add(operators.pop());
        }
        return output;
    }

    static boolean binds(String before, String token) {
        return STRENGTH.containsKey(before) && STRENGTH.get(before) >= STRENGTH.get(token);
    }

    static long value(List<String> postfix) {
        Deque<Long> stack = new ArrayDeque<Long>();
        for (String token : postfix) {
            if (!STRENGTH.containsKey(token)) {
                stack.push(Long.parseLong(token));
                continue;
            }
            long right = stack.pop();
            long left = stack.pop();
            char operator = token.charAt(0);
            stack.push(operator == '+' ? left + right : operator == '-' ? left - right : operator == '*' ? left * right : left / right);
        }
        return stack.pop();
    }

    public static void main(String[] args) {
        String[] expressions = {"1+2*3", "(1+2)*3", "8 - 3 - 2", "100/(2+3)/4", "2*(3+4*(5-1))-6", "((((7))))", "123456789*987654321"};
        for (String expression : expressions) {
            List<String> postfix = postfix(expression);
            StringBuilder line = new StringBuilder();
            for (String token : postfix) {
                line.append(token).append(' ');
            }
            System.out.println(expression + " -> " + line.toString() + "= " + value(postfix));
        }
    }
}
