/** A hash map with generic types, inner iterators that fail after changes, and keys of several classes. */
public class Main {
    interface Walk<T> { boolean more(); T next(); }
    static class Changed extends IllegalStateException {
        final int expected, found;
        Changed(int expected, int found) {
            super("changed");
            this.expected = expected;
            this.found = found;
        }
        public String getMessage() { return super.getMessage() + " from " + expected + " to " + found; }
    }
    static class HashTable<K, V> {
        private static class Entry<K, V> {
            final K key; V value; Entry<K, V> next; final int hash;
            Entry(K key, V value, int hash, Entry<K, V> next) { this.key = key; this.value = value; this.hash = hash; this.next = next; }
        }
        private Entry<K, V>[] table;
        private int size, changes;
        @SuppressWarnings("unchecked")
        HashTable() { table = (Entry<K, V>[]) new Entry[4]; }
        V get(K key) {
            Entry<K, V> e = find(key, key.hashCode());
            return e == null ? null : e.value;
        }
        private Entry<K, V> find(K key, int hash) {
            for (Entry<K, V> e = table[hash & table.length - 1]; e != null; e = e.next)
                if (e.hash == hash && e.key.equals(key)) return e;
            return null;
        }
        V put(K key, V value) {
            int hash = key.hashCode();
            Entry<K, V> e = find(key, hash);
            if (e != null) {
                V old = e.value;
                e.value = value;
                return old;
            }
            changes++;
            if (++size > table.length * 3 / 4) grow();
            int at = hash & table.length - 1;
            table[at] = new Entry<K, V>(key, value, hash, table[at]);
            return null;
        }
        V remove(K key) {
            int hash = key.hashCode(), at = hash & table.length - 1;
            Entry<K, V> before = null;
            for (Entry<K, V> e = table[at]; e != null; before = e, e = e.next) {
                if (e.hash != hash || !e.key.equals(key)) continue;
                if (before == null) table[at] = e.next; else before.next = e.next;
                size--;
                changes++;
                return e.value;
            }
            return null;
        }
        @SuppressWarnings("unchecked")
        private void grow() {
            Entry<K, V>[] old = table;
            table = (Entry<K, V>[]) new Entry[old.length * 2];
            for (Entry<K, V> e : old)
                while (e != null) {
                    Entry<K, V> next = e.next;
                    int at = e.hash & table.length - 1;
                    e.next = table[at];
                    table[at] = e;
                    e = next;
                }
        }
        Walk<K> keys() {
            return new Walk<K>() {
                private int at = -1;
                private Entry<K, V> e;
                private final int expected = changes;
                { advance(); }
                private void advance() {
                    if (e != null) e = e.next;
                    while (e == null && ++at < table.length) e = table[at];
                }
                public boolean more() { return e != null; }
                public K next() {
                    if (expected != changes) throw new Changed(expected, changes);
                    K k = e.key;
                    advance();
                    return k;
                }
            };
        }
    }
    static class Point {
        final int x, y;
        Point(int x, int y) { this.x = x; this.y = y; }
        public int hashCode() { return x * 31 ^ y; }
        public boolean equals(Object o) { return o instanceof Point && ((Point) o).x == x && ((Point) o).y == y; }
        public String toString() { return "(" + x + "," + y + ")"; }
    }
    static class Moving extends Point {
        Moving(int x, int y) { super(x, y); }
        public boolean equals(Object o) { return o instanceof Moving && super.equals(o); }
    }
    static int checksum(HashTable<Point, String> map) {
        int sum = 0;
        for (Walk<Point> w = map.keys(); w.more();) {
            Point p = w.next();
            sum = sum * 7 + p.hashCode() + map.get(p).length();
        }
        return sum;
    }
    public static void main(String[] args) {
        HashTable<Point, String> map = new HashTable<Point, String>();
        for (int i = 0; i < 60; i++) map.put(new Point(i % 9, i / 9), "v" + i);
        System.out.println(map.size + " entries, checksum " + checksum(map));
        for (int i = 0; i < 60; i += 3) System.out.print(map.remove(new Point(i % 9, i / 9)) + (i == 57 ? "\n" : " "));
        System.out.println(map.size + " entries, checksum " + checksum(map));
        System.out.println(map.get(new Moving(1, 0)) + " " + map.get(new Point(0, 0)) + " " + map.put(new Moving(1, 0), "moving"));
        System.out.println(map.size);
        try {
            int n = 0;
            for (Walk<Point> w = map.keys(); w.more(); n++) {
                Point p = w.next();
                if (n == 5) map.put(new Point(100, n), p.toString());
            }
        } catch (Changed c) {
            System.out.println(c.getMessage());
            System.out.println(c.expected < c.found);
        }
        try {
            map.get(null);
        } catch (NullPointerException none) {
            System.out.println("no null keys");
        }
        HashTable<String, HashTable<String, Point>> nested = new HashTable<String, HashTable<String, Point>>();
        String[] names = { "Aa", "BB", "AaAa", "BBBB", "AaBB", "BBAa" };
        for (String a : names) {
            HashTable<String, Point> inner = new HashTable<String, Point>();
            for (String b : names) if (a.hashCode() == b.hashCode()) inner.put(b, new Point(a.length(), b.charAt(0)));
            nested.put(a, inner);
        }
        for (Walk<String> w = nested.keys(); w.more();) {
            String k = w.next();
            System.out.print(k + " " + nested.get(k).size + ":");
            for (Walk<String> v = nested.get(k).keys(); v.more();) System.out.print(" " + v.next());
            System.out.println();
        }
    }
}
