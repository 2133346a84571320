import java.util.ArrayList;
import java.util.List;

/** An enum that implements an interface, as another class does. */
public class Main {
    interface Filter {
        boolean accepts(String line);
    }

    enum Level implements Filter {
        ERROR('E'), WARNING('W'), INFO('I');

        private final char mark;

        Level(char mark) {
            this.mark = mark;
        }

        public boolean accepts(String line) {
            return line.charAt(0) == mark;
        }
    }

    static class Longer implements Filter {
        private final int than;

        Longer(int than) {
            this.than = than;
        }

        public boolean accepts(String line) {
            return line.length() > than;
        }
    }

    static List<String> filtered(List<String> lines, Filter filter) {
        List<String> result = new ArrayList<String>();
        for (String line : lines) {
            if (filter.accepts(line)) {
                result.add(line);
            }
        }
        return result;
    }

    public static void main(String[] args) {
        List<String> lines = new ArrayList<String>();
        lines.add("I start");
        lines.add("W low memory");
        lines.add("E no memory");
        lines.add("I end");
        for (Level level : Level.values()) {
            System.out.println(level + " " + filtered(lines, level));
        }
        System.out.println(filtered(lines, new Longer(7)));
    }
}
