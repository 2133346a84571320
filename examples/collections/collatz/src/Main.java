import java.util.HashMap;
import java.util.Map;

/** How many steps the Collatz sequence takes, with a memory of what was found before. */
public class Main {
    private final Map<Long, Integer> known = new HashMap<Long, Integer>();
    private int hits;

    int steps(long number) {
        if (number == 1) {
            return 0;
        }
        Integer found = known.get(number);
        if (found != null) {
            hits++;
            return found;
        }
        int steps = 1 + steps(number % 2 == 0 ? number / 2 : 3 * number + 1);
        known.put(number, steps);
        return steps;
    }

    public static void main(String[] args) {
        Main collatz = new Main();
        for (int number : new int[] {1, 7, 27, 97}) {
            System.out.println(number + " takes " + collatz.steps(number));
        }
        int most = 0;
        int best = 0;
        for (int number = 1; number < 3000; number++) {
            int steps = collatz.steps(number);
            if (steps > most) {
                most = steps;
                best = number;
            }
        }
        System.out.println("most below 3000: " + best + " takes " + most);
        long greatest = 0;
        for (long number : collatz.known.keySet()) {
            greatest = Math.max(greatest, number);
        }
        System.out.println(collatz.known.size() + " known, the greatest " + greatest + ", found again " + collatz.hits);
    }
}
