/** Lets an exception of the machine leave main: which one, the first argument says. */
public class Main {
    static int none(int[] a) { return a.length; }
    public static void main(String[] args) {
        System.out.println("before " + args[0]);
        Object text = args[0];
        Object[] texts = args;
        int n = args[0].length();
        switch (args[0].charAt(0)) {
            case 'a': n /= n - 10; break;
            case 'i': n = new int[n][n].length + args[n].length(); break;
            case 's': texts[0] = new Object(); break;
            case 'c': n = ((Main[]) text).length; break;
            case 'n': n = new byte[3 - n].length; break;
            case 'p': n = none(null); break;
            case 't': n = args[0].charAt(n); break;
            default: throw null;
        }
        System.out.println("never " + n);
    }
}
