package q;

// Its m overrides that of P, and so that of A.
public class Q extends p.P {
    public String m() { return "Q"; }
}
