import java.util.Comparator;
import java.util.PriorityQueue;
import java.util.Queue;

/** Jobs in a priority queue: by their own order, and by one that is handed in. */
public class Main {
    static class Job implements Comparable<Job> {
        private static int made;
        final int number = ++made;
        final String name;
        final int priority;
        final int minutes;

        Job(String name, int priority, int minutes) {
            this.name = name;
            this.priority = priority;
            this.minutes = minutes;
        }

        /** The more urgent job comes first, and of two equal ones the earlier. */
        public int compareTo(Job other) {
            return priority != other.priority ? other.priority - priority : number - other.number;
        }
    }

    static class ByLength implements Comparator<Job> {
        public int compare(Job one, Job other) {
            return one.minutes != other.minutes ? one.minutes - other.minutes : one.compareTo(other);
        }
    }

    static void fill(Queue<Job> queue) {
        queue.add(new Job("mend the roof", 3, 240));
        queue.add(new Job("feed the cat", 9, 5));
        queue.add(new Job("write a letter", 3, 30));
        queue.add(new Job("buy bread", 6, 15));
        queue.add(new Job("read", 1, 60));
        queue.add(new Job("water the plants", 6, 10));
    }

    static void work(Queue<Job> queue) {
        int now = 0;
        boolean isInterrupted = false;
        while (!queue.isEmpty()) {
            Job job = queue.poll();
            System.out.println("  " + now + ": " + job.name + ", priority " + job.priority);
            now += job.minutes;
            if (now > 60 && !isInterrupted) {
                isInterrupted = true;
                queue.offer(new Job("answer the door", 10, 2));
            }
        }
        System.out.println("  " + now + ": done");
    }

    public static void main(String[] args) {
        Queue<Job> urgent = new PriorityQueue<Job>();
        fill(urgent);
        System.out.println("by priority, first " + urgent.peek().name);
        work(urgent);
        Queue<Job> quick = new PriorityQueue<Job>(4, new ByLength());
        fill(quick);
        System.out.println("by length, first " + quick.peek().name);
        work(quick);
    }
}
