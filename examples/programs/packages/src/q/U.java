package q;

// Its t overrides neither that of S nor that of T.
public class U extends p.T {
    String t() { return "U"; }

    public static String callU(U u) { return u.t(); }
}
