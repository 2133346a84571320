package p;

// Its m overrides that of A, of its own package, and that of B, which is public.
public class C extends q.B {
    public String m() { return "C"; }
}
