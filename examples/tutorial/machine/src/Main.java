/** Runs programs of a language with eight commands. */
public class Main {
    private final byte[] cells = new byte[64];
    private final String program;
    private final StringBuilder output = new StringBuilder();

    Main(String program) {
        this.program = program;
    }

    private int partner(int at, int step) {
        int depth = 0;
        do {
            char c = program.charAt(at);
            depth += c == '[' ? 1 : c == ']' ? -1 : 0;
            at += step;
        } while (depth != 0);
        return at - step;
    }

    String run(String input) {
        int cell = 0;
        int read = 0;
        for (int at = 0; at < program.length(); at++) {
            switch (program.charAt(at)) {
                case '>': cell++; break;
                case '<': cell--; break;
                case '+': cells[cell]++; break;
                case '-': cells[cell]--; break;
                case '.': output.append((char) cells[cell]); break;
                case ',': cells[cell] = read < input.length() ? (byte) input.charAt(read++) : 0; break;
                case '[': at = cells[cell] == 0 ? partner(at, 1) : at; break;
                case ']': at = cells[cell] != 0 ? partner(at, -1) : at; break;
                default: break;
            }
        }
        return output.toString();
    }

    public static void main(String[] args) {
        System.out.println(new Main("++++++++[>++++++++<-]>+.+.+.>+++[<++++++++>-]<.").run(""));
        System.out.println(new Main(">,[>,]<[.<]").run("stressed"));
        System.out.println(new Main(",[.-]").run("\5").length());
    }
}
