package p;

public class T extends S {
    String t() { return "T"; }
}
