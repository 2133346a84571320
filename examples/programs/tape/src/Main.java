/** A machine of stack codes with both kinds of switch, its assembler, and programs that it runs, some of which go wrong. */
public class Main {
    static final int PUSH = 1, ADD = 2, SUB = 3, MUL = 4, DIV = 5, DUP = 6, SWAP = 7, OVER = 8, DROP = 9, JUMP = 10, ZERO = 11, LESS = 12,
        LOAD = 13, STORE = 14, CALL = 15, RETURN = 16, PRINT = 17, HALT = 18, EMIT = 100, TRACE = 1000, TRAP = -77;
    static class Trap extends Exception {
        final int at;
        Trap(String what, int at) { super(what); this.at = at; }
        public String toString() { return super.toString() + " at " + at; }
    }
    static class Overflow extends Trap { Overflow(int at) { super("stack", at); } }
    static class Tape {
        final int[] code;
        private final int[] stack = new int[32], calls = new int[16], cells = new int[64];
        private int top, depth, at;
        long steps;
        Tape(int[] code) { this.code = code; }
        private void push(int v) throws Trap {
            try {
                stack[top++] = v;
            } catch (ArrayIndexOutOfBoundsException full) {
                throw new Overflow(at);
            }
        }
        private int pop() throws Trap {
            if (top == 0) throw new Trap("empty", at);
            return stack[--top];
        }
        boolean step() throws Trap {
            int op = code[at++], a, b;
            steps++;
            switch (op) {
                case PUSH: push(code[at++]); break;
                case ADD: push(pop() + pop()); break;
                case SUB: b = pop(); push(pop() - b); break;
                case MUL: push(pop() * pop()); break;
                case DIV: b = pop(); push(pop() / b); break;
                case DUP: a = pop(); push(a); push(a); break;
                case SWAP: b = pop(); a = pop(); push(b); push(a); break;
                case OVER: b = pop(); a = pop(); push(a); push(b); push(a); break;
                case DROP: pop(); break;
                case JUMP: at = code[at]; break;
                case ZERO: at = pop() == 0 ? code[at] : at + 1; break;
                case LESS: b = pop(); push(pop() < b ? 1 : 0); break;
                case LOAD: push(cells[code[at++]]); break;
                case STORE: cells[code[at++]] = pop(); break;
                case CALL: calls[depth++] = at + 1; at = code[at]; break;
                case RETURN: at = calls[--depth]; break;
                case PRINT: System.out.print(pop()); System.out.print(' '); break;
                case HALT: return false;
                default: rare(op);
            }
            return true;
        }
        private void rare(int op) throws Trap {
            switch (op) {
                case EMIT: System.out.print((char) pop()); return;
                case TRACE: System.out.print("[" + top + "]"); return;
                case TRAP: throw new Trap("asked", at);
                case Integer_MIN: System.out.print("min "); return;
                default: throw new Trap("no code " + op, at);
            }
        }
        private static final int Integer_MIN = -2147483648;
        String run(long limit) {
            try {
                while (step()) if (steps >= limit) return "limit";
                return "halted";
            } catch (Overflow o) {
                return "overflow of " + top + " " + o.getMessage();
            } catch (Trap t) {
                return t.toString();
            } catch (ArithmeticException z) {
                return "division";
            } catch (IndexOutOfBoundsException outside) {
                return "outside";
            } finally {
                System.out.println();
            }
        }
    }
    static int[] assemble(String text) {
        int[] out = new int[200];
        int n = 0;
        String[] labels = new String[20];
        int[] places = new int[20];
        int known = 0;
        String[] open = new String[40];
        int[] wanted = new int[40];
        int opened = 0;
        int i = 0;
        while (i < text.length()) {
            int k = i;
            while (k < text.length() && text.charAt(k) != ' ') k++;
            String w = text.substring(i, k);
            i = k + 1;
            if (w.length() == 0) continue;
            char c = w.charAt(0);
            if (c == ':') { labels[known] = w.substring(1, w.length()); places[known++] = n; continue; }
            if (c == '@') { open[opened] = w.substring(1, w.length()); wanted[opened++] = n++; continue; }
            int v = 0, sign = 1;
            for (int m = 0; m < w.length(); m++) {
                char d = w.charAt(m);
                if (d == '-') sign = -1; else v = v * 10 + d - '0';
            }
            out[n++] = sign * v;
        }
        for (int o = 0; o < opened; o++)
            for (int l = 0; l < known; l++)
                if (labels[l].equals(open[o])) out[wanted[o]] = places[l];
        int[] code = new int[n];
        for (int m = 0; m < n; m++) code[m] = out[m];
        return code;
    }
    public static void main(String[] args) {
        String[] programs = {
            "1 10 14 0 :loop 13 0 6 17 1 1 3 6 14 0 11 @end 10 @loop :end 18",
            "1 12 15 @fib 17 18 :fib 6 1 2 12 11 @deep 16 :deep 6 1 1 3 15 @fib 7 1 2 3 15 @fib 2 16",
            "1 1 1 7 :loop 1000 8 8 2 10 @loop",
            "1 5 1 0 5 18", "2 18", "1 72 100 1 105 100 1 -2147483648 9 -2147483648 -77", "1 3 13 64 18", "55", "15 @x :x 15 @x", "1 2 10 @far :far 1 65 100 10 @far",
        };
        for (int i = 0; i < programs.length; i++) {
            Tape t = new Tape(assemble(programs[i]));
            String end = t.run(5000);
            System.out.println(i + ": " + end + " after " + t.steps);
        }
    }
}
