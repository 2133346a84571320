import java.util.LinkedList;
import java.util.Queue;
import java.util.Random;

/** Customers who wait at a till. */
public class Main {
    static class Customer {
        final int arrived;
        final int items;

        Customer(int arrived, int items) {
            this.arrived = arrived;
            this.items = items;
        }
    }

    public static void main(String[] args) {
        Random random = new Random(7);
        Queue<Customer> line = new LinkedList<Customer>();
        int busy = 0;
        int served = 0;
        int waited = 0;
        int longest = 0;
        for (int minute = 0; minute < 480; minute++) {
            if (random.nextInt(4) == 0) {
                line.offer(new Customer(minute, 1 + random.nextInt(10)));
            }
            longest = Math.max(longest, line.size());
            if (busy > 0) {
                busy--;
            } else if (!line.isEmpty()) {
                Customer next = line.poll();
                busy = next.items / 3;
                waited += minute - next.arrived;
                served++;
            }
        }
        System.out.println("served " + served + ", waited " + waited + " minutes, longest line " + longest + ", left " + line.size());
    }
}
