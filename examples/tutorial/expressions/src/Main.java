/** Computes sums, products and brackets by recursive descent. */
public class Main {
    static class SyntaxException extends RuntimeException {
        SyntaxException(String what, int at) {
            super(what + " at " + at);
        }
    }

    private final String text;
    private int at;

    Main(String text) {
        this.text = text;
    }

    private char peek() {
        while (at < text.length() && Character.isWhitespace(text.charAt(at))) {
            at++;
        }
        return at < text.length() ? text.charAt(at) : '\0';
    }

    long all() {
        long value = sum();
        if (peek() != '\0') {
            throw new SyntaxException("unexpected " + peek(), at);
        }
        return value;
    }

    private long sum() {
        long value = product();
        for (char sign = peek(); sign == '+' || sign == '-'; sign = peek()) {
            at++;
            long other = product();
            value = sign == '+' ? value + other : value - other;
        }
        return value;
    }

    private long product() {
        long value = factor();
        while (peek() == '*' || peek() == '/' || peek() == '%') {
            char sign = text.charAt(at++);
            long other = factor();
            value = sign == '*' ? value * other : sign == '/' ? value / other : value % other;
        }
        return value;
    }

    private long factor() {
        char c = peek();
        if (c == '-') {
            at++;
            return -factor();
        }
        if (c == '(') {
            at++;
            long value = sum();
            if (peek() != ')') {
                throw new SyntaxException("missing )", at);
            }
            at++;
            return value;
        }
        if (!Character.isDigit(c)) {
            throw new SyntaxException("missing number", at);
        }
        long value = 0;
        while (Character.isDigit(peek())) {
            value = value * 10 + (text.charAt(at++) - '0');
        }
        return value;
    }

    public static void main(String[] args) {
        String[] texts = {"1 + 2 * 3", "(1 + 2) * -3", "100 / 7 % 4", "2 * (3 + 4", "5 $ 3", "", "4294967296 * 16"};
        for (String text : texts) {
            try {
                System.out.println(text + " = " + new Main(text).all());
            } catch (SyntaxException e) {
                System.out.println("\"" + text + "\": " + e.getMessage());
            }
        }
    }
}
