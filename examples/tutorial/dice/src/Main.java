import java.util.Map;
import java.util.Random;
import java.util.TreeMap;

/** What two dice show in a thousand throws. */
public class Main {
    public static void main(String[] args) {
        Random random = new Random(2026);
        Map<Integer, Integer> counts = new TreeMap<Integer, Integer>();
        for (int i = 0; i < 1000; i++) {
            int sum = random.nextInt(6) + random.nextInt(6) + 2;
            counts.put(sum, counts.containsKey(sum) ? counts.get(sum) + 1 : 1);
        }
        for (Map.Entry<Integer, Integer> each : counts.entrySet()) {
            StringBuilder bar = new StringBuilder();
            for (int i = 0; i < each.getValue(); i += 10) {
                bar.append('*');
            }
            System.out.println((each.getKey() < 10 ? " " : "") + each.getKey().intValue() + " " + bar.toString());
        }
    }
}
