/** Ends with a status out of nested finally blocks, in a class start, so that nothing after it is printed. */
public class Main {
    static class Last {
        static int status;
        static {
            int s = 0;
            try {
                for (int i = 0; s < 1000; i++) {
                    s += i;
                    if (s > 250) throw new Error("enough");
                }
            } finally {
                System.out.println("sum " + s);
                try {
                    Main.leave(s);
                } finally {
                    System.out.println("never");
                }
            }
        }
    }
    static void leave(int n) {
        try {
            System.out.print("leaving with " + (n & 255));
            System.out.println();
            System.exit(n);
        } catch (Throwable t) {
            System.out.println("never caught");
        }
        System.out.println("never after");
    }
    public static void main(String[] args) {
        System.out.println("begin");
        try {
            System.out.println(Last.status);
        } finally {
            System.out.println("never at last");
        }
    }
}
