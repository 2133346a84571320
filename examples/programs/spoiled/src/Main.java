/** A class whose start fails: what it printed before stands, and nothing after. */
public class Main {
    static class Inner {
        static int[] table = { 1, 2, 3 };
        static int sum;
        static { System.out.println("start"); for (int i = 0; i <= 3; i++) { sum += table[i]; System.out.println(sum); } }
    }
    public static void main(String[] args) {
        System.out.println("main");
        int before = Inner.sum;
        System.out.println("never " + before);
    }
}
