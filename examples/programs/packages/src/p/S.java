package p;

public abstract class S {
    abstract String t();

    public static String callS(S s) { return s.t(); }
}
