import java.util.LinkedHashMap;
import java.util.Map;

/** A cache by a map in the order of use, whose constructor wants a load factor. */
public class Main {
    static class Cache extends LinkedHashMap<String, String> {
        Cache() {
            super(16, 0.75f, true);
        }

        @Override
        protected boolean removeEldestEntry(Map.Entry<String, String> eldest) {
            return size() > 2;
        }
    }

    public static void main(String[] args) {
        Map<String, String> cache = new Cache();
        cache.put("a", "1");
        cache.put("b", "2");
        cache.get("a");
        cache.put("c", "3");
        System.out.println(cache.containsKey("a") + " " + cache.containsKey("b"));
    }
}
