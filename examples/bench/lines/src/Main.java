/** Prints: a million lines. */
public class Main {
    public static void main(String[] arguments) {
        for (int i = 0; i < 1000000; i++) {
            System.out.println(i);
        }
    }
}
