import java.util.ArrayList;
import java.util.HashMap;
import java.util.LinkedHashSet;
import java.util.List;
import java.util.Map;
import java.util.Set;

/** Listeners of a thermometer: some are told of each change, some only of great ones, and some leave. */
public class Main {
    interface Listener {
        void changed(String room, int before, int now);
    }

    static class Thermometer {
        private final Set<Listener> listeners = new LinkedHashSet<Listener>();
        private final Map<String, Integer> degrees = new HashMap<String, Integer>();

        void add(Listener listener) {
            if (!listeners.add(listener)) {
                System.out.println("(it listens already)");
            }
        }

        boolean remove(Listener listener) {
            return listeners.remove(listener);
        }

        void measure(String room, int now) {
            Integer before = degrees.put(room, now);
            if (before != null && before != now) {
                for (Listener listener : new ArrayList<Listener>(listeners)) {
                    listener.changed(room, before, now);
                }
            }
        }
    }

    static class Alarm implements Listener {
        private final Thermometer source;
        private final int limit;

        Alarm(Thermometer source, int limit) {
            this.source = source;
            this.limit = limit;
        }

        public void changed(String room, int before, int now) {
            if (now > limit) {
                System.out.println("  alarm: " + now + " in the " + room);
                source.remove(this);
            }
        }
    }

    public static void main(String[] args) {
        Thermometer thermometer = new Thermometer();
        final List<String> log = new ArrayList<String>();
        final int[] sum = {0};
        thermometer.add(new Listener() {
            public void changed(String room, int before, int now) {
                log.add(room + " " + before + " -> " + now);
            }
        });
        Listener adding = new Listener() {
            public void changed(String room, int before, int now) {
                sum[0] += Math.abs(now - before);
            }
        };
        thermometer.add(adding);
        thermometer.add(adding);
        thermometer.add(new Alarm(thermometer, 25));
        thermometer.add(new Alarm(thermometer, 30));
        int[] degrees = {20, 21, 21, 26, 24, 27, 31, 19};
        for (int i = 0; i < degrees.length; i++) {
            System.out.println("round " + i);
            thermometer.measure("kitchen", degrees[i]);
            thermometer.measure("cellar", degrees[i] / 2);
        }
        for (String line : log) {
            System.out.println(line);
        }
        System.out.println("moved by " + sum[0] + ", removed " + thermometer.remove(adding) + " " + thermometer.remove(adding)
            + ", " + thermometer.listeners.size() + " left");
    }
}
