import java.util.ArrayList;
import java.util.List;

/**
 * Fills a list with ten boxes, adds them up and drops them, as often as the first argument says: each time in a new list, or
 * always in the same one. The boxes have numbers below the third argument.
 */
public class Main {
    static void fill(List<Integer> list, int round, int limit) {
        for (int i = 0; i < 10; i++) {
            list.add((round + i) % limit);
        }
    }

    static int sum(List<Integer> list) {
        int sum = 0;
        for (int i = 0; i < list.size(); i++) {
            sum += list.get(i);
        }
        return sum;
    }

    static long fresh(int rounds, int limit) {
        long sum = 0;
        for (int round = 0; round < rounds; round++) {
            List<Integer> list = new ArrayList<Integer>();
            fill(list, round, limit);
            sum += sum(list);
        }
        return sum;
    }

    static long reused(int rounds, int limit) {
        long sum = 0;
        List<Integer> list = new ArrayList<Integer>();
        for (int round = 0; round < rounds; round++) {
            fill(list, round, limit);
            sum += sum(list);
            list.clear();
        }
        return sum;
    }

    public static void main(String[] args) {
        int rounds = Integer.parseInt(args[0]);
        int limit = Integer.parseInt(args[2]);
        long sum = args[1].equals("fresh") ? fresh(rounds, limit) : reused(rounds, limit);
        System.out.println(rounds + " rounds, sum " + sum);
    }
}
