/** A simulation of a small bank counter: events of several classes in a queue by time, clients with patience, and a report per clerk. */
public class Main {
    static abstract class Event {
        final long time;
        private static int serial;
        private final int number = ++serial;
        Event(long time) { this.time = time; }
        boolean before(Event e) { return time < e.time || time == e.time && number < e.number; }
        abstract void happen(World w);
    }
    static final class Queue {
        private Event[] heap = new Event[16];
        private int size;
        void add(Event e) {
            if (size == heap.length) throw new IllegalStateException("full");
            int i = size++;
            for (; i > 0 && e.before(heap[i / 2]); i /= 2) heap[i] = heap[i / 2];
            heap[i] = e;
            if (i == 0 && size > 1) sink();
        }
        private void sink() {
            for (int i = 0; ;) {
                int c = i == 0 ? 1 : 2 * i, least = i;
                if (c < size && heap[c].before(heap[least])) least = c;
                if (i > 0 && c + 1 < size && heap[c + 1].before(heap[least])) least = c + 1;
                if (least == i) return;
                Event t = heap[i]; heap[i] = heap[least]; heap[least] = t;
                i = least;
            }
        }
        Event take() {
            if (size == 0) return null;
            Event e = heap[0];
            heap[0] = heap[--size];
            heap[size] = null;
            if (size > 0) sink();
            return e;
        }
    }
    static final class Client {
        final int id, patience, work; final long came; Client next;
        Client(int id, int patience, int work, long came) { this.id = id; this.patience = patience; this.work = work; this.came = came; }
    }
    static final class Clerk {
        final String name; final int speed; Client with; long busy; int served;
        Clerk(String name, int speed) { this.name = name; this.speed = speed; }
    }
    static final class World {
        final Queue queue = new Queue();
        final Clerk[] clerks = { new Clerk("ada", 3), new Clerk("bob", 2), new Clerk("cyd", 5) };
        Client first, last;
        int waiting, longest, gaveUp, clients;
        long now, waited;
        private int seed = 4711;
        int random(int n) { seed = seed * 1664525 + 1013904223; return (seed >>> 10) % n; }
        void trace(String what, Client c) { if (c.id % 25 == 0) System.out.println(now + " " + what + " " + c.id); }
        void arrive(Client c) {
            trace("comes", c);
            if (first == null) first = c; else last.next = c;
            last = c;
            if (++waiting > longest) longest = waiting;
            for (Clerk k : clerks) if (k.with == null) { serve(k); return; }
        }
        void serve(final Clerk k) {
            while (first != null) {
                Client c = first;
                first = c.next;
                if (first == null) last = null;
                waiting--;
                if (now - c.came > c.patience) { gaveUp++; trace("left", c); continue; }
                k.with = c;
                waited += now - c.came;
                final long done = now + c.work / k.speed + 1;
                queue.add(new Event(done) {
                    void happen(World w) {
                        w.trace("done by " + k.name, k.with);
                        k.busy += k.with.work / k.speed + 1;
                        k.served++;
                        k.with = null;
                        w.serve(k);
                    }
                });
                return;
            }
        }
        void run(long until) {
            for (Event e; (e = queue.take()) != null && e.time <= until;) {
                if (e.time < now) throw new IllegalStateException("backwards");
                now = e.time;
                e.happen(this);
            }
        }
    }
    static final class Arrival extends Event {
        Arrival(long time) { super(time); }
        void happen(World w) {
            Client c = new Client(++w.clients, 20 + w.random(60), 5 + w.random(70), w.now);
            w.queue.add(new Arrival(w.now + 1 + w.random(14)));
            w.arrive(c);
        }
    }
    public static void main(String[] args) {
        World w = new World();
        w.queue.add(new Arrival(0));
        w.run(2000);
        for (Clerk k : w.clerks) System.out.println(k.name + " served " + k.served + ", busy " + k.busy * 100 / w.now + "%");
        System.out.println(w.clients + " clients, " + w.gaveUp + " gave up, longest queue " + w.longest + ", waited " + w.waited);
        Queue full = new Queue();
        try {
            for (int i = 0; ; i++) full.add(new Arrival(100 - i * 7 % 50));
        } catch (IllegalStateException e) {
            StringBuilder order = new StringBuilder().append(e.getMessage());
            System.out.print(order.toString());
            for (Event x; (x = full.take()) != null;) System.out.print(" " + x.time);
            System.out.println();
        }
    }
}
