import java.util.AbstractMap;
import java.util.Arrays;
import java.util.Collection;
import java.util.ConcurrentModificationException;
import java.util.HashMap;
import java.util.HashSet;
import java.util.Iterator;
import java.util.LinkedHashMap;
import java.util.LinkedHashSet;
import java.util.Map;
import java.util.Set;

/** Each method of HashMap, LinkedHashMap and their sets, with ordinary and edge arguments. */
public class Main {
    static void show(String what, Object value) {
        System.out.println(what + " = " + (value == null ? "null" : value.toString()));
    }

    static void show(String what, long value) {
        System.out.println(what + " = " + value);
    }

    static void show(String what, boolean value) {
        System.out.println(what + " = " + value);
    }

    /** A key whose hash is given. */
    static final class Key {
        final int hash;
        final String name;

        Key(int hash, String name) {
            this.hash = hash;
            this.name = name;
        }

        public int hashCode() {
            return hash;
        }

        public boolean equals(Object other) {
            return other instanceof Key && ((Key) other).name.equals(name);
        }

        public String toString() {
            return name;
        }
    }

    static void maps(String kind, Map<String, Integer> map) {
        show(kind, map);
        show("empty", map.isEmpty());
        show("none", map.get("a"));
        show("none", map.remove("a"));
        show("none", map.getOrDefault("a", Integer.valueOf(5)));
        String[] words = {
            "the", "quick", "brown", "fox", "jumps", "over", "the", "lazy", "dog", "and", "the", "cat", "that", "sat", "on", "the", "mat", "with", "a", "hat",
        };
        for (int i = 0; i < words.length; i++) {
            Integer old = map.get(words[i]);
            show("put " + words[i], map.put(words[i], old == null ? 1 : old + 1));
        }
        show(kind, map);
        show("null key", map.put(null, 99));
        show("null value", map.put("null", null));
        show("then", map);
        show("size", map.size());
        show("hash", map.hashCode());
        show("found", map.containsKey(null) && map.containsKey("null") && map.containsValue(null) && map.containsValue(4) && !map.containsKey("z"));
        show("value", map.containsValue(1000));
        show("or", map.getOrDefault("null", 3));
        show("or", map.getOrDefault("z", 3));
        show("if absent", map.putIfAbsent("fox", 17));
        show("if absent", map.putIfAbsent("null", 17));
        show("if absent", map.putIfAbsent("wolf", 17));
        show("then", map);
        show("removed", map.remove("the"));
        show("removed", map.remove(null));
        show("removed", map.remove("z"));
        show("keys", map.keySet());
        show("values", map.values());
        show("entries", map.entrySet());
        show("sizes", map.keySet().size() + map.values().size() + map.entrySet().size());
        show("keys of", map.keySet().contains("dog") && !map.keySet().contains("the"));
        show("keys removed", map.keySet().remove("dog") && !map.keySet().remove("dog"));
        show("keys removed", map.keySet().removeAll(Arrays.asList("mat", "hat", "z")));
        show("values removed", map.values().remove(17));
        show("entry", map.entrySet().contains(new AbstractMap.SimpleEntry<String, Integer>("fox", 1)));
        show("entry removed", map.entrySet().remove(new AbstractMap.SimpleEntry<String, Integer>("fox", 2)));
        show("entry removed", map.entrySet().remove(new AbstractMap.SimpleEntry<String, Integer>("fox", 1)));
        show("then", map);
        for (Map.Entry<String, Integer> each : map.entrySet()) {
            show("entry " + each.getKey(), each);
            show("hash", each.hashCode());
            if (each.getValue() != null) {
                show("set", each.setValue(each.getValue() * 10));
            }
        }
        for (Iterator<String> each = map.keySet().iterator(); each.hasNext();) {
            String key = each.next();
            if (key.length() > 3) {
                each.remove();
                try {
                    each.remove();
                } catch (IllegalStateException e) {
                    show("remove throws", e);
                }
            }
        }
        show("then", map);
        for (Iterator<Integer> each = map.values().iterator(); each.hasNext();) {
            Integer value = each.next();
            if (value != null && value > 10) {
                each.remove();
            }
        }
        show("then", map);
        try {
            for (String each : map.keySet()) {
                map.put(each + "!", 0);
            }
        } catch (ConcurrentModificationException e) {
            show("for throws", e);
        }
        Map<String, Integer> other = new HashMap<String, Integer>(map);
        show("equal", map.equals(other) && other.equals(map) && map.hashCode() == other.hashCode() && map.keySet().equals(other.keySet()));
        other.put("more", 1);
        show("equal", map.equals(other) || map.equals("a") || map.equals(null));
        map.putAll(other);
        show("then", map);
        map.keySet().retainAll(Arrays.asList("more", "cat!"));
        show("then", map);
        Iterator<String> end = map.keySet().iterator();
        while (end.hasNext()) {
            end.next();
        }
        try {
            end.next();
        } catch (RuntimeException e) {
            show("end throws", e);
        }
        map.clear();
        show("cleared", map);
        show("keys", map.keySet().iterator().hasNext());
    }

    static void order() {
        Map<Integer, Integer> map = new HashMap<Integer, Integer>();
        for (int i = 0; i < 200; i++) {
            map.put(i * 7919 % 1009 - 500, i);
        }
        show("numbers", map);
        for (int i = 0; i < 200; i += 3) {
            map.remove(i * 7919 % 1009 - 500);
        }
        show("numbers", map.keySet());
        show("again", new HashMap<Integer, Integer>(map).values());
        Map<Integer, Integer> five = new HashMap<Integer, Integer>();
        for (int i = 0; i < 5; i++) {
            five.put(i * 9, i);
        }
        Map<Integer, Integer> taken = new HashMap<Integer, Integer>();
        taken.putAll(five);
        show("five", five);
        show("taken", taken);
        taken.putAll(map);
        show("taken", taken.keySet());
        int[] capacities = {0, 1, 2, 3, 5, 17, 100};
        for (int i = 0; i < capacities.length; i++) {
            Map<Long, String> longs = new HashMap<Long, String>(capacities[i]);
            for (long j = 0; j < 30; j++) {
                longs.put(j * j * 1000003L << 7, "v" + j);
            }
            show("capacity " + capacities[i], longs);
        }
        Map<Character, Boolean> chars = new HashMap<Character, Boolean>();
        for (char c = 'z'; c >= 'a'; c -= 5) {
            chars.put(c, c > 'm');
        }
        show("chars", chars);
        try {
            new HashMap<String, String>(-3);
        } catch (RuntimeException e) {
            show("capacity", e);
        }
    }

    static void crowds() {
        Map<Key, Integer> map = new HashMap<Key, Integer>();
        for (int i = 0; i < 10; i++) {
            map.put(new Key(5 + i % 2 * 32, "k" + i), i);
        }
        map.put(new Key(6, "other"), 6);
        show("crowd", map);
        for (int i = 0; i < 10; i += 2) {
            show("removed", map.remove(new Key(5, "k" + i)));
        }
        show("crowd", map);
        show("negative", map.put(new Key(-1, "negative"), 1));
        show("least", map.put(new Key(Integer.MIN_VALUE, "least"), 2));
        show("crowd", map.entrySet());
    }

    static void sets(String kind, Set<String> set) {
        show(kind, set);
        String[] words = {"to", "be", "or", "not", "to", "be", "that", "is", "the", "question"};
        for (int i = 0; i < words.length; i++) {
            show("add " + words[i], set.add(words[i]));
        }
        show("null", set.add(null) && !set.add(null));
        show(kind, set);
        show("size", set.size());
        show("hash", set.hashCode());
        show("contains", set.contains("be") && set.contains(null) && !set.contains("z") && !set.isEmpty());
        show("remove", set.remove("be") && !set.remove("be") && set.remove(null));
        show("all", set.containsAll(Arrays.asList("to", "or")) && !set.containsAll(Arrays.asList("to", "be")));
        show("addAll", set.addAll(Arrays.asList("to", "be")));
        show("addAll", set.addAll(Arrays.asList("to", "be")));
        show("then", set);
        show("removeAll", set.removeAll(Arrays.asList("question", "z")));
        show("removeAll", set.removeAll(Arrays.asList("1", "2", "3", "4", "5", "6", "7", "8", "9", "that")));
        show("retainAll", set.retainAll(new HashSet<String>(Arrays.asList("to", "be", "not", "is"))));
        show("then", set);
        show("array", Arrays.toString(set.toArray(new String[set.size()])));
        show("equal", set.equals(new HashSet<String>(Arrays.asList("is", "not", "be", "to"))) && !set.equals(Arrays.asList("is")));
        for (Iterator<String> each = set.iterator(); each.hasNext();) {
            if (each.next().length() == 2) {
                each.remove();
            }
        }
        show("then", set);
        set.clear();
        show("cleared", set);
    }

    /** A map of at most two keys, which counts its calls. */
    static class Two<K, V> extends LinkedHashMap<K, V> {
        private int puts;
        private int questions;

        Two() {
        }

        Two(Map<K, V> others) {
            super(others);
        }

        public V put(K key, V value) {
            puts++;
            return super.put(key, value);
        }

        protected boolean removeEldestEntry(Map.Entry<K, V> eldest) {
            questions++;
            return size() > 2;
        }

        String calls() {
            return " after " + puts + " puts and " + questions + " questions";
        }
    }

    /** A map that removes its eldest key itself, and says yes or no. */
    static class Own extends LinkedHashMap<Integer, String> {
        private final boolean isAnswered;

        Own(boolean isAnswered) {
            this.isAnswered = isAnswered;
        }

        protected boolean removeEldestEntry(Map.Entry<Integer, String> eldest) {
            boolean isFull = size() > 3;
            if (isFull) {
                remove(eldest.getKey());
            }
            return isFull && isAnswered;
        }
    }

    static void eldest() {
        Map<Integer, String> five = new LinkedHashMap<Integer, String>();
        for (int i = 0; i < 5; i++) {
            five.put(i, "v" + i);
        }
        Two<Integer, String> made = new Two<Integer, String>(five);
        show("made", made.toString() + made.calls());
        made.put(3, "w");
        show("put again", made.toString() + made.calls());
        made.putIfAbsent(7, "w");
        show("put if absent", made.toString() + made.calls());
        Two<Integer, String> filled = new Two<Integer, String>();
        filled.putAll(five);
        show("filled", filled.toString() + filled.calls());
        Own yes = new Own(true);
        Own no = new Own(false);
        for (int i = 0; i < 6; i++) {
            yes.put(i, "y");
            no.put(i, "n");
        }
        show("own", yes.toString() + no.toString());
        final int[] puts = {0};
        Map<Integer, String> counted = new HashMap<Integer, String>() {
            public String put(Integer key, String value) {
                puts[0]++;
                return super.put(key, value);
            }
        };
        counted.putAll(five);
        counted.put(9, "x");
        show("counted", counted.toString() + puts[0]);
    }

    static void linked() {
        LinkedHashMap<Integer, String> latest = new LinkedHashMap<Integer, String>() {
            protected boolean removeEldestEntry(Map.Entry<Integer, String> eldest) {
                return size() > 3;
            }
        };
        for (int i = 0; i < 6; i++) {
            latest.put(i * 100 % 7, "v" + i);
            show("latest", latest);
        }
        show("clone", ((HashMap<Integer, String>) latest.clone()).size());
        Set<Integer> order = new LinkedHashSet<Integer>(Arrays.asList(5, 3, 9, 3, 1, 5));
        show("order", order);
        show("clone", ((LinkedHashSet<Integer>) order).clone());
        show("hash set", new HashSet<Integer>(order).clone());
        show("of many", new HashSet<Integer>(Arrays.asList(100, 33, 17, 16, 48, 64, 80, 96, 112, 128, 144, 160, 176)));
        Map<Integer, String> copied = new LinkedHashMap<Integer, String>(latest);
        copied.remove(latest.keySet().iterator().next());
        copied.put(1, "one");
        show("copied", copied);
    }

    static void entries() {
        AbstractMap.SimpleEntry<String, Integer> one = new AbstractMap.SimpleEntry<String, Integer>("k", 1);
        AbstractMap.SimpleImmutableEntry<String, Integer> two = new AbstractMap.SimpleImmutableEntry<String, Integer>(one);
        show("entry", one);
        show("equal", one.equals(two) && two.equals(one) && one.hashCode() == two.hashCode());
        show("set", one.setValue(2));
        show("equal", one.equals(two) || one.equals("k"));
        try {
            two.setValue(3);
        } catch (UnsupportedOperationException e) {
            show("set throws", e);
        }
        Map<Object, Object> map = new HashMap<Object, Object>();
        map.put("self", map);
        show("itself", map);
        Collection<Object> values = map.values();
        show("values", values.contains(map));
    }

    public static void main(String[] args) {
        maps("HashMap", new HashMap<String, Integer>());
        maps("LinkedHashMap", new LinkedHashMap<String, Integer>());
        maps("HashMap of 100", new HashMap<String, Integer>(100));
        order();
        crowds();
        sets("HashSet", new HashSet<String>());
        sets("LinkedHashSet", new LinkedHashSet<String>());
        sets("HashSet of 3", new HashSet<String>(3));
        linked();
        eldest();
        entries();
    }
}
