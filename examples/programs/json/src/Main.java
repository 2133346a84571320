/** Reads JSON from the input, tells where it is wrong, prints it again in order of keys, and computes over it. */
public class Main {
    static class Bad extends Exception { final int line, column; Bad(String m, int line, int column) { super(m); this.line = line; this.column = column; } }
    static abstract class Json {
        abstract void write(StringBuilder out, int indent);
        int depth() { return 0; }
        long sum() { return 0; }
        void newline(StringBuilder out, int indent) { out.append('\n'); while (indent-- > 0) out.append("  "); }
    }
    static final class Atom extends Json {
        final String text;
        Atom(String text) { this.text = text; }
        void write(StringBuilder out, int indent) { out.append(text); }
    }
    static final class Num extends Json {
        final long value;
        Num(long value) { this.value = value; }
        void write(StringBuilder out, int indent) { out.append(value); }
        long sum() { return value; }
    }
    static final class Text extends Json {
        final String value;
        Text(String value) { this.value = value; }
        void write(StringBuilder out, int indent) {
            out.append('"');
            for (int i = 0; i < value.length(); i++) {
                char c = value.charAt(i);
                switch (c) {
                    case '"': case '\\': out.append('\\').append(c); break;
                    case '\n': out.append("\\n"); break;
                    case '\t': out.append("\\t"); break;
                    default:
                        if (c < ' ' || c > '~') {
                            out.append("\\u");
                            for (int s = 12; s >= 0; s -= 4) out.append("0123456789abcdef".charAt(c >> s & 15));
                        } else out.append(c);
                }
            }
            out.append('"');
        }
    }
    static class Many extends Json {
        Json[] items = new Json[2];
        int size;
        void add(Json j) {
            if (size == items.length) {
                Json[] more = new Json[size + (size >> 1) + 1];
                for (int i = 0; i < size; i++) more[i] = items[i];
                items = more;
            }
            items[size++] = j;
        }
        int depth() { int d = 0; for (int i = 0; i < size; i++) { int n = items[i].depth(); if (n > d) d = n; } return d + 1; }
        long sum() { long s = 0; for (int i = 0; i < size; i++) s += items[i].sum(); return s; }
        void write(StringBuilder out, int indent) {
            if (size == 0) { out.append("[]"); return; }
            out.append('[');
            for (int i = 0; i < size; i++) {
                if (i > 0) out.append(',');
                newline(out, indent + 1);
                items[i].write(out, indent + 1);
            }
            newline(out, indent);
            out.append(']');
        }
    }
    static final class Record extends Many {
        private String[] keys = new String[2];
        boolean put(String key, Json value) {
            int at = size;
            while (at > 0 && keys[at - 1].compareTo(key) > 0) at--;
            if (at > 0 && keys[at - 1].equals(key)) { items[at - 1] = value; return false; }
            add(value);
            if (keys.length < items.length) {
                String[] more = new String[items.length];
                for (int i = 0; i < size - 1; i++) more[i] = keys[i];
                keys = more;
            }
            for (int i = size - 1; i > at; i--) { items[i] = items[i - 1]; keys[i] = keys[i - 1]; }
            items[at] = value;
            keys[at] = key;
            return true;
        }
        void write(StringBuilder out, int indent) {
            out.append('{');
            for (int i = 0; i < size; i++) {
                newline(out, indent + 1);
                new Text(keys[i]).write(out, 0);
                out.append(": ");
                items[i].write(out, indent + 1);
                if (i < size - 1) out.append(',');
            }
            if (size > 0) newline(out, indent);
            out.append('}');
        }
    }
    static int c, line = 1, column, twice;
    static void next() throws java.io.IOException {
        if (c == '\n') { line++; column = 0; }
        c = System.in.read();
        column++;
    }
    static void space() throws java.io.IOException { while (c == ' ' || c == '\n' || c == '\t' || c == '\r') next(); }
    static Bad bad(String m) { return new Bad(m, line, column); }
    static Json value() throws java.io.IOException, Bad {
        space();
        try {
            if (c == '{') {
                Record r = new Record();
                next(); space();
                while (c != '}') {
                    if (c != '"') throw bad("key");
                    String k = text();
                    space();
                    if (c != ':') throw bad("colon");
                    next();
                    if (!r.put(k, value())) twice++;
                    if (c == ',') { next(); space(); } else if (c != '}') throw bad("comma");
                }
                next();
                return r;
            }
            if (c == '[') {
                Many m = new Many();
                next(); space();
                while (c != ']') {
                    m.add(value());
                    if (c == ',') next(); else if (c != ']') throw bad("comma in list");
                }
                next();
                return m;
            }
            if (c == '"') return new Text(text());
            if (c == '-' || c >= '0' && c <= '9') {
                boolean minus = c == '-';
                if (minus) next();
                long v = 0;
                int digits = 0;
                for (; c >= '0' && c <= '9'; next(), digits++) v = v * 10 + c - '0';
                if (digits == 0) throw bad("digits");
                return new Num(minus ? -v : v);
            }
            StringBuilder word = new StringBuilder();
            for (; c >= 'a' && c <= 'z'; next()) word.append((char) c);
            String w = word.toString();
            if (w.equals("true") || w.equals("false") || w.equals("null")) return new Atom(w);
            throw bad(w.length() == 0 ? "value" : w);
        } finally {
            space();
        }
    }
    static String text() throws java.io.IOException, Bad {
        StringBuilder s = new StringBuilder();
        for (next(); c != '"'; next()) {
            if (c < 0) throw bad("end in text");
            if (c != '\\') { s.append((char) c); continue; }
            next();
            if (c == 'n') s.append('\n');
            else if (c == 't') s.append('\t');
            else if (c == 'u') {
                int u = 0;
                for (int i = 0; i < 4; i++) {
                    next();
                    u = u << 4 | (c <= '9' ? c - '0' : (c | 32) - 'a' + 10);
                }
                s.append((char) u);
            } else s.append((char) c);
        }
        next();
        return s.toString();
    }
    public static void main(String[] args) throws java.io.IOException {
        next();
        space();
        while (c >= 0) {
            try {
                Json j = value();
                StringBuilder out = new StringBuilder();
                j.write(out, 0);
                System.out.println(out.toString());
                System.out.println("depth " + j.depth() + ", sum " + j.sum() + ", " + twice + " keys twice, hash " + out.toString().hashCode());
            } catch (Bad b) {
                System.out.println(b.getMessage() + " expected or wrong in line " + b.line + ", column " + b.column);
                while (c >= 0 && c != '\n') next();
                space();
            }
        }
    }
}
