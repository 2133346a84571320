import java.util.ArrayList;
import java.util.HashMap;
import java.util.Iterator;
import java.util.List;
import java.util.Map;
import java.util.NoSuchElementException;

/** A tokenizer that is an iterator of its own, and a small language of assignments on top of it. */
public class Main {
    static class Tokens implements Iterator<String> {
        private final String text;
        private int at;

        Tokens(String text) {
            this.text = text;
            skipSpaces();
        }

        private void skipSpaces() {
            while (at < text.length() && Character.isWhitespace(text.charAt(at))) {
                at++;
            }
        }

        public boolean hasNext() {
            return at < text.length();
        }

        public String next() {
            if (!hasNext()) {
                throw new NoSuchElementException();
            }
            int start = at++;
            if (Character.isLetterOrDigit(text.charAt(start))) {
                while (at < text.length() && Character.isLetterOrDigit(text.charAt(at))) {
                    at++;
                }
            }
            String token = text.substring(start, at);
            skipSpaces();
            return token;
        }

        public void remove() {
            throw new UnsupportedOperationException();
        }
    }

    private final Map<String, Integer> variables = new HashMap<String, Integer>();

    int value(String token) {
        if (Character.isDigit(token.charAt(0))) {
            return Integer.parseInt(token);
        }
        Integer value = variables.get(token);
        if (value == null) {
            throw new IllegalArgumentException("no variable " + token);
        }
        return value;
    }

    /** Runs `name = term + term - term ..`. */
    void run(String line) {
        Tokens tokens = new Tokens(line);
        String name = tokens.next();
        if (!tokens.next().equals("=")) {
            throw new IllegalArgumentException("= is missing");
        }
        int sum = value(tokens.next());
        while (tokens.hasNext()) {
            String operator = tokens.next();
            int term = value(tokens.next());
            sum += operator.equals("-") ? -term : term;
        }
        variables.put(name, sum);
        System.out.println(name + " is " + sum);
    }

    public static void main(String[] args) {
        Main program = new Main();
        for (String line : new String[] {"x = 5", "y=x+10-3", "  long1 =  y + y+y ", "z = x + q", "x 5", "x = x - long1", "w = 7 +", "big = 99999999999"}) {
            try {
                program.run(line);
            } catch (NoSuchElementException e) {
                System.out.println("\"" + line + "\" ends too early");
            } catch (IllegalArgumentException e) {
                System.out.println("\"" + line + "\": " + e.getMessage());
            }
        }
        List<String> all = new ArrayList<String>();
        for (Tokens tokens = new Tokens("if(a1<=b2){return a1;}"); tokens.hasNext();) {
            all.add(tokens.next());
        }
        System.out.println(all.size() + " tokens: " + all.toString());
    }
}
