import java.util.HashMap;
import java.util.Map;
import java.util.PriorityQueue;

/** A simulation by events in the order of their times: machines work, break and are mended. */
public class Main {
    abstract static class Event implements Comparable<Event> {
        private static int made;
        private final int number = made++;
        final int time;

        Event(int time) {
            this.time = time;
        }

        abstract void happen(Main plant);

        public int compareTo(Event other) {
            return time != other.time ? time - other.time : number - other.number;
        }
    }

    static class Finished extends Event {
        private final String machine;

        Finished(int time, String machine) {
            super(time);
            this.machine = machine;
        }

        void happen(Main plant) {
            int count = plant.pieces.get(machine) + 1;
            plant.pieces.put(machine, count);
            if (count % 8 == 0) {
                System.out.println(time + ": " + machine + " breaks after " + count);
                plant.events.add(new Mended(time + 15, machine));
            } else {
                plant.events.add(new Finished(time + plant.minutes.get(machine), machine));
            }
        }
    }

    static class Mended extends Event {
        private final String machine;

        Mended(int time, String machine) {
            super(time);
            this.machine = machine;
        }

        void happen(Main plant) {
            System.out.println(time + ": " + machine + " is mended");
            plant.events.add(new Finished(time + plant.minutes.get(machine), machine));
        }
    }

    private final PriorityQueue<Event> events = new PriorityQueue<Event>();
    private final Map<String, Integer> pieces = new HashMap<String, Integer>();
    private final Map<String, Integer> minutes = new HashMap<String, Integer>();

    void start(String machine, int each) {
        pieces.put(machine, 0);
        minutes.put(machine, each);
        events.add(new Finished(each, machine));
    }

    int run(int end) {
        int count = 0;
        while (!events.isEmpty() && events.peek().time <= end) {
            events.remove().happen(this);
            count++;
        }
        return count;
    }

    public static void main(String[] args) {
        Main plant = new Main();
        plant.start("press", 7);
        plant.start("saw", 11);
        plant.start("drill", 5);
        System.out.println(plant.run(240) + " events, " + plant.events.size() + " to come");
        for (Map.Entry<String, Integer> entry : plant.pieces.entrySet()) {
            int made = entry.getValue();
            System.out.println(entry.getKey() + " made " + made);
        }
    }
}
