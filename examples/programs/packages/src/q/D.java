package q;

// Its m overrides that of C, and with it that of A.
public class D extends p.C {
    public String m() { return "D"; }
}
