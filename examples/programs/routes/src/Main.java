/** Shortest ways through a weighted graph: linked edges, a heap of states, long distances, and ways put together backwards. */
public class Main {
    static final class Edge {
        final Place to; final int length; final Edge next;
        Edge(Place to, int length, Edge next) { this.to = to; this.length = length; this.next = next; }
    }
    static final class Place {
        private static int count;
        final int number = count++;
        final String name;
        Edge edges;
        long distance;
        Place before;
        int at = -1;
        Place(String name) { this.name = name; }
        void join(Place other, int length) {
            edges = new Edge(other, length, edges);
            other.edges = new Edge(this, length, other.edges);
        }
    }
    static final class Queue {
        private Place[] heap = new Place[2];
        int size, moves;
        void raise(Place p) {
            if (p.at < 0) {
                if (size == heap.length) {
                    Place[] more = new Place[size * 3 / 2 + 1];
                    for (int i = 0; i < size; i++) more[i] = heap[i];
                    heap = more;
                }
                p.at = size++;
            }
            int i = p.at;
            for (int up; i > 0 && heap[up = (i - 1) >> 2].distance > p.distance; i = up) put(heap[up], i);
            put(p, i);
        }
        private void put(Place p, int i) { heap[i] = p; p.at = i; moves++; }
        Place take() {
            Place first = heap[0], last = heap[--size];
            heap[size] = null;
            first.at = -1;
            if (first == last) return first;
            int i = 0;
            while (true) {
                int least = -1;
                for (int c = 4 * i + 1; c < 4 * i + 5 && c < size; c++)
                    if (least < 0 || heap[c].distance < heap[least].distance) least = c;
                if (least < 0 || heap[least].distance >= last.distance) break;
                put(heap[least], i);
                i = least;
            }
            put(last, i);
            return first;
        }
    }
    static final long FAR = 1L << 40;
    static int spread(Place[] places, Place from) {
        for (int i = 0; i < places.length; i++) { places[i].distance = FAR; places[i].before = null; places[i].at = -1; }
        Queue q = new Queue();
        from.distance = 0;
        q.raise(from);
        while (q.size > 0) {
            Place p = q.take();
            for (Edge e = p.edges; e != null; e = e.next) {
                long d = p.distance + e.length * 1000000007L;
                if (d < e.to.distance) {
                    e.to.distance = d;
                    e.to.before = p;
                    q.raise(e.to);
                }
            }
        }
        return q.moves;
    }
    static String way(Place to) {
        return to.before == null ? to.name : way(to.before) + "-" + to.name;
    }
    public static void main(String[] args) {
        int side = 24;
        Place[] places = new Place[side * side + 1];
        for (int i = 0; i < places.length; i++) places[i] = new Place(String.valueOf((char) ('a' + i % side)) + i / side);
        int seed = 20;
        for (int y = 0; y < side; y++)
            for (int x = 0; x < side; x++) {
                seed = seed * 69069 + 1;
                if (x > 0 && (seed >>> 8) % 10 != 0) places[y * side + x].join(places[y * side + x - 1], (seed >>> 12) % 50 + 1);
                if (y > 0 && (seed >>> 16) % 10 != 0) places[y * side + x].join(places[y * side + x - side], (seed >>> 20) % 50 + 1);
            }
        int[] ends = { side - 1, side * side - 1, side * (side - 1), side * side / 2, side * side };
        int moves = spread(places, places[0]);
        for (int i = 0; i < ends.length; i++) {
            Place p = places[ends[i]];
            System.out.println(p.distance == FAR ? p.name + " can't be reached" : p.name + " " + p.distance + " " + way(p));
        }
        long sum = 0;
        for (Place p : places) sum += p.distance % 1000003 * (p.number + 1);
        System.out.println(moves + " moves, sum " + sum);
        long around = 0;
        for (int k = 0; k < 6; k++) {
            spread(places, places[k * 97 % places.length]);
            for (Place p : places) around ^= p.distance << k;
        }
        System.out.println(around);
    }
}
