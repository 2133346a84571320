/** A small Lisp that reads its input: pairs, symbols, closures, tail calls by a loop, and errors as exceptions. */
public class Main {
    static class Failure extends RuntimeException {
        Failure(String message) { super(message); }
    }
    static abstract class Value {
        boolean isTrue() { return true; }
    }
    static final class Nil extends Value {
        boolean isTrue() { return false; }
        public String toString() { return "()"; }
    }
    static final class Whole extends Value {
        final long value;
        Whole(long value) { this.value = value; }
        public String toString() { return String.valueOf(value); }
    }
    static final class Symbol extends Value {
        static Symbol known;
        final String name;
        final Symbol next;
        private Symbol(String name) { this.name = name; this.next = known; known = this; }
        static Symbol of(String name) {
            for (Symbol s = known; s != null; s = s.next) if (s.name.equals(name)) return s;
            return new Symbol(name);
        }
        public String toString() { return name; }
    }
    static final class Pair extends Value {
        final Value head;
        Value tail;
        Pair(Value head, Value tail) { this.head = head; this.tail = tail; }
        public String toString() {
            StringBuilder s = new StringBuilder().append('(').append(head.toString());
            Value rest = tail;
            while (rest instanceof Pair) {
                s.append(' ').append(((Pair) rest).head.toString());
                rest = ((Pair) rest).tail;
            }
            if (rest != NIL) s.append(" . ").append(rest.toString());
            return s.append(')').toString();
        }
    }
    static abstract class Primitive extends Value {
        final String name;
        Primitive(String name) { this.name = name; TOP.define(Symbol.of(name), this); }
        abstract Value apply(Value[] arguments);
        public String toString() { return "#" + name; }
    }
    static final class Closure extends Value {
        final Value parameters, body;
        final Scope scope;
        Closure(Value parameters, Value body, Scope scope) { this.parameters = parameters; this.body = body; this.scope = scope; }
        public String toString() { return "#closure" + parameters.toString(); }
    }
    static final class Scope {
        private Symbol[] names = new Symbol[2];
        private Value[] values = new Value[2];
        private int size;
        final Scope outer;
        Scope(Scope outer) { this.outer = outer; }
        void define(Symbol name, Value value) {
            for (int i = 0; i < size; i++) if (names[i] == name) { values[i] = value; return; }
            if (size == names.length) {
                Symbol[] n = new Symbol[size * 2];
                Value[] v = new Value[size * 2];
                for (int i = 0; i < size; i++) { n[i] = names[i]; v[i] = values[i]; }
                names = n;
                values = v;
            }
            names[size] = name;
            values[size++] = value;
        }
        Value get(Symbol name) {
            for (Scope s = this; s != null; s = s.outer)
                for (int i = s.size - 1; i >= 0; i--) if (s.names[i] == name) return s.values[i];
            throw new Failure("unbound " + name.name);
        }
    }
    static final Nil NIL = new Nil();
    static final Scope TOP = new Scope(null);
    static final Symbol QUOTE = Symbol.of("quote"), IF = Symbol.of("if"), DEFINE = Symbol.of("define"), LAMBDA = Symbol.of("lambda"), LET = Symbol.of("let");
    static int next = ' ';
    static int line = 1;

    static int read() throws java.io.IOException {
        int c = next;
        next = System.in.read();
        if (c == '\n') line++;
        return c;
    }
    static Value parse() throws java.io.IOException {
        while (next == ' ' || next == '\n' || next == ';') {
            if (next == ';') while (next != '\n' && next != -1) read();
            else read();
        }
        if (next == -1) return null;
        if (next == ')') { read(); throw new Failure("stray ) in line " + line); }
        if (next == '\'') {
            read();
            return new Pair(QUOTE, new Pair(parse(), NIL));
        }
        if (next == '(') {
            read();
            Pair first = new Pair(NIL, NIL), last = first;
            while (true) {
                while (next == ' ' || next == '\n') read();
                if (next == ')') { read(); return first.tail; }
                Value v = parse();
                if (v == null) throw new Failure("open ( at the end");
                Pair p = new Pair(v, NIL);
                last.tail = p;
                last = p;
            }
        }
        StringBuilder word = new StringBuilder();
        while (next != -1 && next != ' ' && next != '\n' && next != '(' && next != ')') word.append((char) read());
        String w = word.toString();
        int sign = w.charAt(0) == '-' && w.length() > 1 ? 1 : 0;
        long n = 0;
        for (int i = sign; i < w.length(); i++) {
            char c = w.charAt(i);
            if (c < '0' || c > '9') return Symbol.of(w);
            n = n * 10 + (c - '0');
        }
        return new Whole(sign == 1 ? -n : n);
    }
    static Value nth(Value list, int n) {
        try {
            Pair p = (Pair) list;
            while (n-- > 0) p = (Pair) p.tail;
            return p.head;
        } catch (ClassCastException short_) {
            throw new Failure("too short: " + list.toString());
        }
    }
    static int evaluations;
    static Value eval(Value v, Scope scope) {
        while (true) {
            evaluations++;
            if (v instanceof Symbol) return scope.get((Symbol) v);
            if (!(v instanceof Pair)) return v;
            Value head = ((Pair) v).head;
            if (head == QUOTE) return nth(v, 1);
            if (head == IF) {
                v = nth(v, eval(nth(v, 1), scope).isTrue() ? 2 : 3);
                continue;
            }
            if (head == DEFINE) {
                Value what = nth(v, 1);
                if (what instanceof Pair) scope.define((Symbol) ((Pair) what).head, new Closure(((Pair) what).tail, nth(v, 2), scope));
                else scope.define((Symbol) what, eval(nth(v, 2), scope));
                return NIL;
            }
            if (head == LAMBDA) return new Closure(nth(v, 1), nth(v, 2), scope);
            if (head == LET) {
                Scope inner = new Scope(scope);
                for (Value b = nth(v, 1); b instanceof Pair; b = ((Pair) b).tail)
                    inner.define((Symbol) nth(((Pair) b).head, 0), eval(nth(((Pair) b).head, 1), scope));
                v = nth(v, 2);
                scope = inner;
                continue;
            }
            Value f = eval(head, scope);
            int n = 0;
            for (Value a = ((Pair) v).tail; a instanceof Pair; a = ((Pair) a).tail) n++;
            Value[] arguments = new Value[n];
            n = 0;
            for (Value a = ((Pair) v).tail; a instanceof Pair; a = ((Pair) a).tail) arguments[n++] = eval(((Pair) a).head, scope);
            if (f instanceof Primitive) return ((Primitive) f).apply(arguments);
            if (!(f instanceof Closure)) throw new Failure("not a function: " + f.toString());
            Closure c = (Closure) f;
            Scope inner = new Scope(c.scope);
            n = 0;
            for (Value p = c.parameters; p instanceof Pair; p = ((Pair) p).tail) inner.define((Symbol) ((Pair) p).head, arguments[n++]);
            v = c.body;
            scope = inner;
        }
    }
    static long number(Value v) {
        if (v instanceof Whole) return ((Whole) v).value;
        throw new Failure("no number: " + v.toString());
    }
    static abstract class Folding extends Primitive {
        Folding(String name) { super(name); }
        abstract long fold(long a, long b);
        Value apply(Value[] a) {
            long r = number(a[0]);
            for (int i = 1; i < a.length; i++) r = fold(r, number(a[i]));
            return new Whole(r);
        }
    }
    static void primitives() {
        new Folding("+") { long fold(long a, long b) { return a + b; } };
        new Folding("-") { long fold(long a, long b) { return a - b; } };
        new Folding("*") { long fold(long a, long b) { return a * b; } };
        new Folding("/") { long fold(long a, long b) { return a / b; } };
        new Folding("%") { long fold(long a, long b) { return a % b; } };
        new Primitive("<") { Value apply(Value[] a) { return number(a[0]) < number(a[1]) ? a[0] : NIL; } };
        new Primitive("=") { Value apply(Value[] a) { return a[0] == a[1] || a[0] instanceof Whole && a[1] instanceof Whole && number(a[0]) == number(a[1]) ? Symbol.of("t") : NIL; } };
        new Primitive("cons") { Value apply(Value[] a) { return new Pair(a[0], a[1]); } };
        new Primitive("head") { Value apply(Value[] a) { return ((Pair) a[0]).head; } };
        new Primitive("tail") { Value apply(Value[] a) { return ((Pair) a[0]).tail; } };
        new Primitive("pair?") { Value apply(Value[] a) { return a[0] instanceof Pair ? a[0] : NIL; } };
        new Primitive("list") {
            Value apply(Value[] a) {
                Value l = NIL;
                for (int i = a.length; --i >= 0;) l = new Pair(a[i], l);
                return l;
            }
        };
    }
    public static void main(String[] args) throws java.io.IOException {
        primitives();
        read();
        for (int errors = 0; errors < 20;) {
            try {
                Value v = parse();
                if (v == null) break;
                Value r = eval(v, TOP);
                if (r != NIL) System.out.println(r.toString());
            } catch (Failure f) {
                errors++;
                System.out.println("error: " + f.getMessage());
            } catch (ArithmeticException zero) {
                errors++;
                System.out.println("error: division");
            } catch (ArrayIndexOutOfBoundsException few) {
                errors++;
                System.out.println("error: too few arguments");
            } catch (ClassCastException wrong) {
                errors++;
                System.out.println("error: wrong kind");
            }
        }
        System.out.println(evaluations + " evaluations, " + line + " lines");
    }
}
