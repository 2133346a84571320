import java.util.Collections;
import java.util.ArrayList;
import java.util.List;
import java.util.Map;
import java.util.Random;
import java.util.TreeMap;

/** Rolls of dice with a seed: how often each sum comes, and the longest row of one number. */
public class Main {
    static int roll(Random random, int dice) {
        int sum = 0;
        for (int i = 0; i < dice; i++) {
            sum += 1 + random.nextInt(6);
        }
        return sum;
    }

    static Map<Integer, Integer> histogram(Random random, int dice, int rolls) {
        Map<Integer, Integer> counts = new TreeMap<Integer, Integer>();
        for (int i = 0; i < rolls; i++) {
            int sum = roll(random, dice);
            Integer count = counts.get(sum);
            counts.put(sum, count == null ? 1 : count + 1);
        }
        return counts;
    }

    public static void main(String[] args) {
        for (int dice = 1; dice <= 3; dice++) {
            System.out.println(dice + (dice == 1 ? " die" : " dice"));
            for (Map.Entry<Integer, Integer> entry : histogram(new Random(42), dice, 2000).entrySet()) {
                int sum = entry.getKey();
                int count = entry.getValue();
                StringBuilder bar = new StringBuilder();
                for (int i = 0; i < count / 10; i++) {
                    bar.append('*');
                }
                System.out.println((sum < 10 ? " " : "") + sum + " " + bar.toString() + " " + count);
            }
        }
        Random random = new Random(7);
        List<Integer> rolls = new ArrayList<Integer>();
        for (int i = 0; i < 500; i++) {
            rolls.add(roll(random, 1));
        }
        int longest = 0;
        int row = 0;
        Integer before = null;
        for (Integer roll : rolls) {
            row = roll.equals(before) ? row + 1 : 1;
            longest = Math.max(longest, row);
            before = roll;
        }
        System.out.println("sixes: " + Collections.frequency(rolls, 6) + ", longest row: " + longest);
        System.out.println(random.nextLong() + " " + random.nextBoolean() + " " + random.nextInt());
    }
}
