import java.util.ArrayList;
import java.util.List;

/** Prime factors. */
public class Main {
    static List<Long> factors(long number) {
        List<Long> found = new ArrayList<Long>();
        for (long p = 2; p * p <= number; p++) {
            while (number % p == 0) {
                found.add(p);
                number /= p;
            }
        }
        if (number > 1) {
            found.add(number);
        }
        return found;
    }

    public static void main(String[] args) {
        long[] numbers = {1, 2, 12, 97, 360, 1001, 65536, 600851475143L};
        for (long number : numbers) {
            StringBuilder line = new StringBuilder().append(number).append(" =");
            List<Long> found = factors(number);
            for (int i = 0; i < found.size(); i++) {
                line.append(i == 0 ? " " : " * ").append(found.get(i).longValue());
            }
            System.out.println(line.toString());
        }
    }
}
