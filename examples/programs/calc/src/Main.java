/** Parses and simplifies formulas over whole numbers, derives them, and evaluates them at points; a visitor for each. */
public class Main {
    interface Visitor { Object number(long n); Object name(char c); Object pair(char op, Node a, Node b); }
    static abstract class Node { abstract Object take(Visitor v); }
    static class Num extends Node { final long n; Num(long n) { this.n = n; } Object take(Visitor v) { return v.number(n); } }
    static class Var extends Node { final char c; Var(char c) { this.c = c; } Object take(Visitor v) { return v.name(c); } }
    static class Op extends Node { final char op; final Node a, b; Op(char op, Node a, Node b) { this.op = op; this.a = a; this.b = b; } Object take(Visitor v) { return v.pair(op, a, b); } }
    static class Box { final long n; Box(long n) { this.n = n; } }
    static class Print implements Visitor {
        public Object number(long n) { return String.valueOf(n); }
        public Object name(char c) { return String.valueOf(c); }
        public Object pair(char op, Node a, Node b) {
            return new StringBuffer("(").append((String) a.take(this)).append(op).append((String) b.take(this)).append(')').toString();
        }
    }
    static class At implements Visitor {
        long x, y;
        public Object number(long n) { return new Box(n); }
        public Object name(char c) { return new Box(c == 'x' ? x : c == 'y' ? y : fail(c)); }
        private long fail(char c) { throw new IllegalStateException(String.valueOf(c)); }
        public Object pair(char op, Node a, Node b) {
            long l = ((Box) a.take(this)).n, r = ((Box) b.take(this)).n;
            switch (op) {
                case '+': return new Box(l + r);
                case '-': return new Box(l - r);
                case '*': return new Box(l * r);
                case '/': return new Box(l / r);
                default: {
                    long p = 1;
                    for (long i = 0; i < r; i++) p *= l;
                    return new Box(p);
                }
            }
        }
    }
    static class Derive implements Visitor {
        final char by;
        Derive(char by) { this.by = by; }
        public Object number(long n) { return new Num(0); }
        public Object name(char c) { return new Num(c == by ? 1 : 0); }
        public Object pair(char op, Node a, Node b) {
            Node l = (Node) a.take(this), r = (Node) b.take(this);
            switch (op) {
                case '+': case '-': return new Op(op, l, r);
                case '*': return new Op('+', new Op('*', l, b), new Op('*', a, r));
                case '/': return new Op('/', new Op('-', new Op('*', l, b), new Op('*', a, r)), new Op('^', b, new Num(2)));
                case '^': if (b instanceof Num) return new Op('*', new Op('*', b, new Op('^', a, new Num(((Num) b).n - 1))), l);
                default: throw new UnsupportedOperationException(String.valueOf(op));
            }
        }
    }
    static class Simple implements Visitor {
        int steps;
        public Object number(long n) { return new Num(n); }
        public Object name(char c) { return new Var(c); }
        private boolean is(Node a, long n) { return a instanceof Num && ((Num) a).n == n; }
        public Object pair(char op, Node a, Node b) {
            steps++;
            a = (Node) a.take(this);
            b = (Node) b.take(this);
            if (a instanceof Num && b instanceof Num && op != '/') return new Num(((Box) new At().pair(op, a, b)).n);
            if (op == '*' && (is(a, 0) || is(b, 0)) || op == '/' && is(a, 0)) return new Num(0);
            if (op == '*' && is(a, 1) || op == '+' && is(a, 0)) return b;
            if ((op == '*' || op == '/' || op == '^') && is(b, 1) || (op == '+' || op == '-') && is(b, 0)) return a;
            if (op == '^' && is(b, 0)) return new Num(1);
            return new Op(op, a, b);
        }
    }
    static String s;
    static int at;
    static char peek() { return at < s.length() ? s.charAt(at) : '$'; }
    static Node level(int n) {
        if (n == 3) return atom();
        Node a = level(n + 1);
        String ops = n == 0 ? "+-" : n == 1 ? "*/" : "^";
        while (true) {
            char c = peek();
            boolean mine = false;
            for (int i = 0; i < ops.length(); i++) mine |= ops.charAt(i) == c;
            if (!mine) return a;
            at++;
            a = new Op(c, a, level(n == 2 ? 2 : n + 1));
        }
    }
    static Node atom() {
        char c = peek();
        at++;
        if (c == '(') {
            Node n = level(0);
            if (peek() != ')') throw new IllegalArgumentException(new StringBuffer(") at ").append(at).toString());
            at++;
            return n;
        }
        if (c >= 'a' && c <= 'z') return new Var(c);
        if (c < '0' || c > '9') throw new IllegalArgumentException(new StringBuffer("atom ").append(c).toString());
        long v = c - '0';
        while (peek() >= '0' && peek() <= '9') v = v * 10 + s.charAt(at++) - '0';
        return new Num(v);
    }
    public static void main(String[] args) {
        String[] all = { "1+2*3", "x*x+3*x*y-7", "(x+1)^3/(y-2)", "2^3^2", "x^5-5*x^4+10", "((x))", "(x+", "3+z", "x^y", "10/(x-x)", "1-2-3-4", "a*", "(1+2" };
        Print print = new Print();
        At point = new At();
        for (int i = 0; i < all.length; i++) {
            s = all[i];
            at = 0;
            System.out.print(s);
            try {
                Node n = level(0);
                System.out.print(" = ");
                System.out.print((String) n.take(print));
                Simple simple = new Simple();
                Node d = (Node) ((Node) n.take(new Derive('x'))).take(simple);
                System.out.print(" ' ");
                System.out.print((String) d.take(print));
                for (int x = -2; x < 4; x += 2) {
                    point.x = x;
                    point.y = x + 5;
                    System.out.print(' ');
                    System.out.print(((Box) n.take(point)).n);
                    System.out.print(',');
                    System.out.print(((Box) d.take(point)).n);
                }
                System.out.print(" in ");
                System.out.println(simple.steps);
            } catch (IllegalArgumentException e) {
                System.out.println(new StringBuffer(" malformed: ").append(e.getMessage()).toString());
            } catch (UnsupportedOperationException e) {
                System.out.println(new StringBuffer(" no derivative of ").append(e.getMessage()).toString());
            } catch (IllegalStateException e) {
                System.out.println(new StringBuffer(" unknown ").append(e.getMessage()).toString());
            } catch (ArithmeticException e) {
                System.out.println(" division by zero");
            }
        }
    }
}
