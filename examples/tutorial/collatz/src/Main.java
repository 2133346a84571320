import java.util.HashMap;
import java.util.Map;

/** The longest way down to 1, with remembered lengths. */
public class Main {
    private final Map<Long, Integer> known = new HashMap<Long, Integer>();

    int length(long n) {
        if (n == 1L) {
            return 1;
        }
        Integer length = known.get(n);
        if (length == null) {
            length = 1 + length(n % 2 == 0 ? n / 2 : 3 * n + 1);
            known.put(n, length);
        }
        return length;
    }

    public static void main(String[] args) {
        Main main = new Main();
        long best = 1;
        for (long n = 1; n <= 1000; n++) {
            if (main.length(n) > main.length(best)) {
                best = n;
            }
        }
        System.out.println(best + " takes " + main.length(best) + " numbers");
        System.out.println(main.known.containsKey(9232L) + " " + main.known.get(7L) + " " + main.known.size());
    }
}
