import java.util.ArrayList;
import java.util.HashMap;
import java.util.List;
import java.util.Map;

/** Fibonacci numbers in three ways: with a map, with a list, and as sums of such numbers. */
public class Main {
    private static final Map<Integer, Long> KNOWN = new HashMap<Integer, Long>();

    static long byMap(int n) {
        if (n < 2) {
            return n;
        }
        if (!KNOWN.containsKey(n)) {
            KNOWN.put(n, byMap(n - 1) + byMap(n - 2));
        }
        return KNOWN.get(n);
    }

    static List<Long> upTo(long limit) {
        List<Long> numbers = new ArrayList<Long>();
        long one = 1;
        long other = 2;
        while (one <= limit) {
            numbers.add(one);
            long next = one + other;
            one = other;
            other = next;
        }
        return numbers;
    }

    /** The number as a sum of numbers none of which is next to another. */
    static String asSum(long number) {
        List<Long> numbers = upTo(number);
        StringBuilder sum = new StringBuilder();
        long rest = number;
        for (int i = numbers.size() - 1; i >= 0; i--) {
            if (numbers.get(i) <= rest) {
                rest -= numbers.get(i);
                sum.append(sum.length() == 0 ? "" : " + ").append(numbers.get(i).longValue());
            }
        }
        return sum.toString();
    }

    public static void main(String[] args) {
        for (int n = 0; n <= 90; n += 15) {
            System.out.println("number " + n + " is " + byMap(n));
        }
        System.out.println(KNOWN.size() + " are known");
        List<Long> numbers = upTo(1000000);
        System.out.println(numbers.size() + " up to a million, the last " + numbers.get(numbers.size() - 1).longValue());
        for (long number : new long[] {1, 4, 100, 2026, 1234567890123L}) {
            System.out.println(number + " = " + asSum(number));
        }
    }
}
