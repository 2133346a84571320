package q;

// Its m doesn't override that of A, which is for the package p.
public class B extends p.A {
    public String m() { return "B"; }

    public static String callB(B b) { return b.m(); }
}
