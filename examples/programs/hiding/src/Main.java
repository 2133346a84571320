/** Fields that hide fields, private methods of one name along a chain, static methods that hide, overloads, bridges, and super calls. */
public class Main {
    static class A {
        int f = 1;
        static String s = "A.s";
        long pair = 10;
        private String secret() { return "A.secret"; }
        String ask() { return secret() + f + self().toString(); }
        A self() { return this; }
        static String stat() { return "A.stat"; }
        String over(Object o) { return "A.object"; }
        String over(String o) { return "A.string"; }
        String over(A a) { return "A.a"; }
        String late() { return "A.late"; }
        public String toString() { return "A" + f; }
        A() { log("A() " + late()); }
    }
    static class B extends A {
        int f = 2;
        static String s = "B.s";
        final String name;
        private String secret() { return "B.secret"; }
        String ask2() { return secret() + f + super.f + ((A) this).f; }
        B self() { return this; }
        static String stat() { return "B.stat"; }
        String over(B b) { return "B.b"; }
        String over(A a) { return "B.a>" + super.over(a); }
        String late() { return "B.late" + name; }
        B(String name) { this.name = name; log("B() " + late()); }
        B() { this("none"); log("B() again"); }
    }
    static class C extends B {
        byte f = 3;
        long pair = 30;
        String secret() { return "C.secret"; }
        String over(Object o) { return "C.object>" + super.over(o); }
        String late() { return "C.late" + f + name; }
        C() { super("c"); pair += super.pair; }
        C self() { f++; return this; }
        public String toString() { return super.toString() + "C" + f; }
    }
    static class D extends C {
        String secret() { return "D." + super.secret(); }
        static String stat() { return "D" + C.stat(); }
    }
    interface Shape extends Named { int SIDES = count("Shape.SIDES", 4); int area(); }
    interface Named { String LABEL = label("Named.LABEL"); String name(); }
    static abstract class Base implements Shape {
        public String name() { return "base" + area() + SIDES; }
    }
    static class Square extends Base implements Named {
        private final int side;
        Square(int side) { this.side = side; }
        public int area() { return side * side; }
        Inner inner() { return new Inner(); }
        class Inner {
            int side = Square.this.side + 1;
            int both() { return side * 100 + Square.this.side; }
            class Deeper { int all() { return both() * 10 + side + Square.this.area(); } }
            Deeper deeper() { return new Deeper(); }
        }
    }
    static int count(String what, int n) { log(what); return n; }
    static String label(String what) { log(what); return what; }
    static void log(String s) { System.out.println(s); }
    static String which(int i) { return "int"; }
    static String which(long i) { return "long"; }
    static String which(Object o) { return "object"; }
    static String which(char c) { return "char"; }

    public static void main(String[] args) {
        A a = new A(), ab = new B(), ac = new C(), ad = new D();
        A[] all = { a, ab, ac, ad };
        for (A x : all) {
            log(x.ask().length() + " " + x.f + " " + x.pair + " " + x.late() + " " + x.over("s") + " " + x.over(x) + " " + x.over((Object) x) + " " + x.toString());
            if (x instanceof B) {
                B b = (B) x;
                log(b.f + " " + b.ask2() + " " + b.over(b) + " " + b.over((A) b) + " " + b.self().f);
            }
            if (x instanceof C) log(((C) x).secret() + " " + ((C) x).f + " " + ((C) x).pair + " " + ((A) x).pair);
        }
        log(A.s + B.s + C.s + " " + A.stat() + B.stat() + C.stat() + D.stat());
        byte small = 3;
        short medium = 4;
        log(which(small) + which(medium) + which('c') + which(5L) + which("s") + which((int) 'c'));
        Named n = new Square(5);
        log(n.name());
        log(n instanceof Shape ? Shape.LABEL : "no");
        Square q = (Square) n;
        Square.Inner.Deeper deep = q.inner().deeper();
        log(String.valueOf(deep.all()));
        try {
            B wrong = (B) a;
            log("never " + wrong.toString());
        } catch (ClassCastException e) {
            log("cast");
        }
    }
}
