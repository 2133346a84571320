import java.util.LinkedHashMap;
import java.util.Map;

/** A cache that forgets what was used longest ago: a linked hash map, where what is used is put at the end again. */
public class Main {
    static class Cache<K, V> extends LinkedHashMap<K, V> {
        private final int limit;
        private int forgotten;

        Cache(int limit) {
            this.limit = limit;
        }

        @Override
        public V get(Object key) {
            V value = remove(key);
            if (value != null) {
                @SuppressWarnings("unchecked")
                K again = (K) key;
                super.put(again, value);
            }
            return value;
        }

        @Override
        protected boolean removeEldestEntry(Map.Entry<K, V> eldest) {
            if (size() > limit) {
                forgotten++;
                return true;
            }
            return false;
        }
    }

    private final Cache<Integer, Long> squares;
    private int computed;

    Main(int limit) {
        squares = new Cache<Integer, Long>(limit);
    }

    long square(int number) {
        Long square = squares.get(number);
        if (square == null) {
            computed++;
            square = (long) number * number;
            squares.put(number, square);
        }
        return square;
    }

    public static void main(String[] args) {
        Cache<Integer, String> names = new Cache<Integer, String>(3);
        names.put(1, "one");
        names.put(2, "two");
        names.put(3, "three");
        System.out.println(names.get(1));
        names.put(4, "four");
        System.out.println(names.keySet().toString() + ", two is " + (names.containsKey(2) ? "kept" : "forgotten"));
        for (int limit = 1; limit <= 64; limit *= 4) {
            Main main = new Main(limit);
            long sum = 0;
            for (int i = 0; i < 1000; i++) {
                sum += main.square(i * i % 37);
            }
            System.out.println("limit " + limit + ": sum " + sum + ", computed " + main.computed + ", forgotten " + main.squares.forgotten);
        }
    }
}
