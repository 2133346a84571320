import java.util.HashMap;
import java.util.Map;
import java.util.Stack;

/** Whether the brackets of a text match, and if not, where it fails. */
public class Main {
    private static final Map<Character, Character> OPENING = new HashMap<Character, Character>();

    static {
        OPENING.put(')', '(');
        OPENING.put(']', '[');
        OPENING.put('}', '{');
    }

    /** The place of the first bracket that doesn't match, or -1. */
    static int mismatch(String text) {
        Stack<Integer> open = new Stack<Integer>();
        for (int i = 0; i < text.length(); i++) {
            char symbol = text.charAt(i);
            if (OPENING.containsValue(symbol)) {
                open.push(i);
            } else if (OPENING.containsKey(symbol)) {
                if (open.isEmpty() || text.charAt(open.peek()) != OPENING.get(symbol)) {
                    return i;
                }
                open.pop();
            }
        }
        return open.isEmpty() ? -1 : open.firstElement();
    }

    public static void main(String[] args) {
        String[] texts = {
            "", "a", "()", "([]{})", "f(a[i], {b})", "(", ")", "(]", "{[(])}", "((((((((((", "x = (y[2) + 1];", "while (true) { stop(now[0]); }",
        };
        for (String text : texts) {
            int place = mismatch(text);
            if (place < 0) {
                System.out.println("\"" + text + "\" is balanced");
                continue;
            }
            StringBuilder pointer = new StringBuilder();
            for (int i = 0; i <= place; i++) {
                pointer.append(' ');
            }
            System.out.println("\"" + text + "\"");
            System.out.println(pointer.append('^').toString());
        }
    }
}
