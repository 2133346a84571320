import java.util.LinkedList;
import java.util.Queue;
import java.util.Random;

/** Customers come to a counter at random, wait in a queue and are served one after the other. */
public class Main {
    static class Customer {
        final int number;
        final int arrival;
        final int service;

        Customer(int number, int arrival, int service) {
            this.number = number;
            this.arrival = arrival;
            this.service = service;
        }
    }

    private final Random random;
    private final Queue<Customer> queue = new LinkedList<Customer>();
    private int arrived;
    private int served;
    private int waited;
    private int longest;
    private int freeAt;

    Main(long seed) {
        random = new Random(seed);
    }

    void minute(int now) {
        if (random.nextInt(4) == 0) {
            arrived++;
            queue.offer(new Customer(arrived, now, 1 + random.nextInt(6)));
            longest = Math.max(longest, queue.size());
        }
        if (now >= freeAt && !queue.isEmpty()) {
            Customer next = queue.remove();
            int wait = now - next.arrival;
            if (next.number % 20 == 0) {
                System.out.println(now + ": customer " + next.number + " waited " + wait);
            }
            waited += wait;
            served++;
            freeAt = now + next.service;
        }
    }

    public static void main(String[] args) {
        for (long seed = 1; seed <= 3; seed++) {
            Main counter = new Main(seed);
            for (int now = 0; now < 480; now++) {
                counter.minute(now);
            }
            System.out.println("day " + seed + ": " + counter.arrived + " came, " + counter.served + " were served, waited " + counter.waited
                + " minutes in all, at most " + counter.longest + " in the queue, " + counter.queue.size() + " left");
        }
    }
}
