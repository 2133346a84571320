import java.util.LinkedHashMap;
import java.util.Map;

/** A cache that drops what was put first. */
public class Main {
    static class Cache<K, V> extends LinkedHashMap<K, V> {
        private final int most;

        Cache(int most) {
            this.most = most;
        }

        protected boolean removeEldestEntry(Map.Entry<K, V> eldest) {
            return size() > most;
        }
    }

    public static void main(String[] args) {
        Map<Integer, String> cache = new Cache<Integer, String>(3);
        int hits = 0;
        for (int i = 0; i < 40; i++) {
            int key = i * i % 7;
            if (cache.containsKey(key)) {
                hits++;
            } else {
                cache.put(key, "square " + key * key);
            }
        }
        System.out.println(hits + " hits, left " + cache.toString());
    }
}
