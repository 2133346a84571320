package p;

// Its m overrides that of A, and is public.
public class P extends A {
    public String m() { return "P"; }
}
