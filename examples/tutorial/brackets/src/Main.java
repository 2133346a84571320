import java.util.Stack;

/** Says whether brackets are balanced. */
public class Main {
    static boolean isBalanced(String text) {
        Stack<Character> open = new Stack<Character>();
        for (int i = 0; i < text.length(); i++) {
            char c = text.charAt(i);
            switch (c) {
                case '(': open.push(')'); break;
                case '[': open.push(']'); break;
                case '{': open.push('}'); break;
                case ')': case ']': case '}':
                    if (open.isEmpty() || open.pop() != c) {
                        return false;
                    }
                    break;
                default:
            }
        }
        return open.isEmpty();
    }

    public static void main(String[] args) {
        String[] texts = {"", "()", "([]{})", "([)]", "((", "a[i] = (b + c) * {d}", ")"};
        for (String text : texts) {
            System.out.println("\"" + text + "\" is " + (isBalanced(text) ? "balanced" : "not balanced"));
        }
    }
}
