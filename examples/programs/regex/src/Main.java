/** Matches texts against patterns by backtracking over a tree of small classes: classes of characters, stars, choices, groups, anchors. */
public class Main {
    static class Malformed extends Exception {
        Malformed(String why, int at) { super(why + " at " + at); }
    }
    static abstract class Rest { abstract boolean go(String s, int at); }
    static abstract class Pattern {
        abstract boolean match(String s, int at, Rest rest);
        boolean empty() { return false; }
    }
    static class One extends Pattern {
        private final char from, to;
        private final boolean not;
        One(char from, char to, boolean not) { this.from = from; this.to = to; this.not = not; }
        boolean match(String s, int at, Rest rest) {
            return at < s.length() && (s.charAt(at) >= from && s.charAt(at) <= to) != not && rest.go(s, at + 1);
        }
    }
    static class Then extends Pattern {
        final Pattern first, second;
        Then(Pattern first, Pattern second) { this.first = first; this.second = second; }
        boolean empty() { return first.empty() && second.empty(); }
        boolean match(String s, int at, final Rest rest) {
            return first.match(s, at, new Rest() { boolean go(String t, int i) { return second.match(t, i, rest); } });
        }
    }
    static class Or extends Pattern {
        private final Pattern[] choices;
        Or(Pattern[] choices) { this.choices = choices; }
        boolean empty() { for (Pattern p : choices) if (p.empty()) return true; return false; }
        boolean match(String s, int at, Rest rest) {
            for (Pattern p : choices) if (p.match(s, at, rest)) return true;
            return false;
        }
    }
    static class Star extends Pattern {
        final Pattern inner;
        final int least, most;
        Star(Pattern inner, int least, int most) { this.inner = inner; this.least = least; this.most = most; }
        boolean empty() { return least == 0 || inner.empty(); }
        boolean match(String s, int at, Rest rest) { return more(s, at, 0, rest); }
        private boolean more(String s, final int at, final int n, final Rest rest) {
            if (n < most && inner.match(s, at, new Rest() {
                boolean go(String t, int i) { return i > at && more(t, i, n + 1, rest); }
            })) return true;
            return n >= least && rest.go(s, at);
        }
    }
    static class Nothing extends Pattern {
        boolean empty() { return true; }
        boolean match(String s, int at, Rest rest) { return rest.go(s, at); }
    }
    static class Edge extends Pattern {
        private final boolean end;
        Edge(boolean end) { this.end = end; }
        boolean empty() { return true; }
        boolean match(String s, int at, Rest rest) { return at == (end ? s.length() : 0) && rest.go(s, at); }
    }
    static class Parser {
        private final String s;
        private int at;
        Parser(String s) { this.s = s; }
        Pattern all() throws Malformed {
            Pattern p = choice();
            if (at < s.length()) throw new Malformed("stray " + s.charAt(at), at);
            return p;
        }
        private Pattern choice() throws Malformed {
            Pattern[] some = new Pattern[8];
            int n = 0;
            do some[n++] = sequence(); while (take('|'));
            if (n == 1) return some[0];
            Pattern[] all = new Pattern[n];
            while (--n >= 0) all[n] = some[n];
            return new Or(all);
        }
        private boolean take(char c) {
            if (at == s.length() || s.charAt(at) != c) return false;
            at++;
            return true;
        }
        private Pattern sequence() throws Malformed {
            Pattern p = null;
            while (at < s.length() && s.charAt(at) != '|' && s.charAt(at) != ')') {
                Pattern q = counted(one());
                p = p == null ? q : new Then(p, q);
            }
            return p == null ? new Nothing() : p;
        }
        private Pattern counted(Pattern p) {
            if (take('*')) return counted(new Star(p, 0, 2147483647));
            if (take('+')) return counted(new Star(p, 1, 2147483647));
            if (take('?')) return counted(new Star(p, 0, 1));
            return p;
        }
        private Pattern one() throws Malformed {
            char c = s.charAt(at++);
            switch (c) {
                case '(': {
                    Pattern p = choice();
                    if (!take(')')) throw new Malformed("open group", at);
                    return p;
                }
                case '.': return new One('\0', '\uffff', false);
                case '^': return new Edge(false);
                case '$': return new Edge(true);
                case '*': case '+': case '?': throw new Malformed("nothing to repeat", at - 1);
                case '[': {
                    boolean not = take('^');
                    Pattern p = null;
                    while (!take(']')) {
                        if (at == s.length()) throw new Malformed("open class", at);
                        char from = s.charAt(at++), to = from;
                        if (take('-')) to = s.charAt(at++);
                        Pattern o = new One(from, to, not);
                        if (p != null && not) throw new Malformed("only one range after ^", at);
                        p = p == null ? o : new Or(new Pattern[] { p, o });
                    }
                    return p == null ? new Nothing() : p;
                }
                case '\\': c = s.charAt(at++);
                default: return new One(c, c, false);
            }
        }
    }
    static int find(Pattern p, String s, int[] end) {
        final int[] found = end;
        for (int i = 0; i <= s.length(); i++)
            if (p.match(s, i, new Rest() { boolean go(String t, int at) { found[0] = at; return true; } })) return i;
        return -1;
    }
    public static void main(String[] args) {
        String[] patterns = { "abc", "a*b+", "(ab|ba)*c", "^[0-9]+(\\.[0-9]+)?$", "x?x?x?xxx", "(a*)*b", "[^aeiou]+", "", "(", "a)", "*", "[ab", "\\", "(a|ab)(c|bcd)(d*)$", "^$" };
        String[] texts = { "abc", "xxaabbb", "ababbac", "12.5", "12.", "xxxx", "aaaaaaaaab", "education", "abcd", "" };
        for (int i = 0; i < patterns.length; i++) {
            StringBuilder line = new StringBuilder().append(patterns[i]).append(':');
            try {
                Pattern p = new Parser(patterns[i]).all();
                if (p.empty()) line.append(" may be empty;");
                for (int k = 0; k < texts.length; k++) {
                    int[] end = new int[1];
                    int at = find(p, texts[k], end);
                    if (at >= 0) line.append(' ').append(texts[k].substring(0, at)).append('<').append(texts[k].substring(at, end[0])).append('>').append(texts[k].substring(end[0], texts[k].length()));
                }
            } catch (Malformed m) {
                line.append(' ').append(m.getMessage());
            } catch (StringIndexOutOfBoundsException cut) {
                line.append(" cut off");
            }
            System.out.println(line.toString());
        }
    }
}
