import java.util.HashMap;
import java.util.Map;

/** Fibonacci numbers that are remembered. */
public class Main {
    private static final Map<Integer, Long> KNOWN = new HashMap<Integer, Long>();

    static long fibonacci(int n) {
        if (n < 2) {
            return n;
        }
        Long known = KNOWN.get(n);
        if (known != null) {
            return known;
        }
        long value = fibonacci(n - 1) + fibonacci(n - 2);
        KNOWN.put(n, value);
        return value;
    }

    public static void main(String[] args) {
        for (int n = 0; n <= 90; n += 10) {
            System.out.println("fibonacci(" + n + ") = " + fibonacci(n));
        }
        System.out.println(KNOWN.size() + " are known");
    }
}
