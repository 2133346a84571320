import java.util.ArrayList;
import java.util.List;

/** The prime factors of numbers, in lists of boxes. */
public class Main {
    static List<Integer> factors(int number) {
        List<Integer> factors = new ArrayList<Integer>();
        int rest = number;
        for (int divisor = 2; divisor <= rest / divisor; divisor++) {
            while (rest % divisor == 0) {
                factors.add(divisor);
                rest /= divisor;
            }
        }
        if (rest > 1) {
            factors.add(rest);
        }
        return factors;
    }

    static String text(List<Integer> factors) {
        StringBuilder text = new StringBuilder();
        for (int factor : factors) {
            if (text.length() > 0) {
                text.append(" * ");
            }
            text.append(factor);
        }
        return text.toString();
    }

    public static void main(String[] args) {
        for (int number : new int[] {2, 12, 97, 360, 1001, 65536, 999999, 2147483647, 2147483646}) {
            System.out.println(number + " = " + text(factors(number)));
        }
        int most = 0;
        int best = 0;
        for (int number = 2; number < 3000; number++) {
            List<Integer> factors = factors(number);
            int product = 1;
            for (int factor : factors) {
                product *= factor;
            }
            if (product != number) {
                System.out.println("wrong: " + number);
            }
            if (factors.size() > most) {
                most = factors.size();
                best = number;
            }
        }
        System.out.println("most factors below 3000: " + best + " with " + most);
    }
}
