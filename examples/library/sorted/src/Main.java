import java.util.Arrays;
import java.util.Comparator;
import java.util.ConcurrentModificationException;
import java.util.HashMap;
import java.util.Iterator;
import java.util.Map;
import java.util.NavigableMap;
import java.util.NavigableSet;
import java.util.Random;
import java.util.SortedMap;
import java.util.SortedSet;
import java.util.TreeMap;
import java.util.TreeSet;

/** Each method of TreeMap and TreeSet, with ordinary and edge arguments. */
public class Main {
    static final int[] PROBES = {-5, 0, 1, 10, 15, 20, 45, 50, 99};

    static void show(String what, Object value) {
        System.out.println(what + " = " + (value == null ? "null" : value.toString()));
    }

    static void show(String what, long value) {
        System.out.println(what + " = " + value);
    }

    static void show(String what, boolean value) {
        System.out.println(what + " = " + value);
    }

    static void neighbours(String kind, NavigableMap<Integer, String> map) {
        show(kind, map);
        show(kind + " size", map.size());
        show(kind + " first", map.firstEntry());
        show(kind + " last", map.lastEntry());
        show(kind + " down", map.descendingMap());
        show(kind + " keys", map.navigableKeySet());
        show(kind + " keys down", map.descendingKeySet());
        show(kind + " values", map.values());
        show(kind + " hash", map.hashCode());
        for (int i = 0; i < PROBES.length; i++) {
            int probe = PROBES[i];
            show(kind + " lower " + probe, map.lowerKey(probe));
            show(kind + " floor " + probe, map.floorEntry(probe));
            show(kind + " ceiling " + probe, map.ceilingEntry(probe));
            show(kind + " higher " + probe, map.higherKey(probe));
            show(kind + " lower " + probe, map.lowerEntry(probe));
            show(kind + " floor " + probe, map.floorKey(probe));
            show(kind + " ceiling " + probe, map.ceilingKey(probe));
            show(kind + " higher " + probe, map.higherEntry(probe));
            show(kind + " get " + probe, map.get(probe));
            show(kind + " has " + probe, map.containsKey(probe));
            show(kind + " or " + probe, map.getOrDefault(probe, "none"));
        }
    }

    static TreeMap<Integer, String> tens() {
        TreeMap<Integer, String> map = new TreeMap<Integer, String>();
        for (int i = 0; i < 10; i++) {
            map.put(i * 7 % 10 * 10, "v" + i);
        }
        return map;
    }

    static void maps() {
        TreeMap<Integer, String> map = tens();
        neighbours("map", map);
        neighbours("none", new TreeMap<Integer, String>());
        neighbours("down", map.descendingMap());
        neighbours("head", map.headMap(50, true));
        neighbours("tail", map.tailMap(15, false));
        neighbours("sub", map.subMap(10, false, 50, true));
        neighbours("sub of down", map.descendingMap().subMap(60, true, 20, false));
        neighbours("sub of sub", map.subMap(0, true, 80, true).headMap(30, false));
        neighbours("empty sub", map.subMap(41, 49) instanceof NavigableMap ? (NavigableMap<Integer, String>) map.subMap(41, 49) : null);
        SortedMap<Integer, String> head = map.headMap(30);
        show("head", head);
        show("put", head.put(5, "five"));
        show("remove", head.remove(0));
        show("remove", head.remove(90));
        try {
            head.put(30, "no");
        } catch (IllegalArgumentException e) {
            show("put", "IllegalArgumentException");
        }
        try {
            map.subMap(5, 1);
        } catch (IllegalArgumentException e) {
            show("sub", e);
        }
        show("tail", map.tailMap(70));
        map.tailMap(70).clear();
        show("map", map);
        show("poll", map.pollFirstEntry());
        show("poll", map.pollLastEntry());
        show("poll", map.descendingMap().pollFirstEntry());
        show("map", map);
        show("ends", map.firstKey() + 1000 * map.lastKey());
        Map.Entry<Integer, String> entry = map.firstEntry();
        try {
            entry.setValue("no");
        } catch (UnsupportedOperationException e) {
            show("set", e);
        }
        for (Map.Entry<Integer, String> each : map.entrySet()) {
            show("set", each.setValue(each.getValue() + "!"));
        }
        show("map", map);
        for (Iterator<Integer> each = map.keySet().iterator(); each.hasNext();) {
            if (each.next() % 20 == 0) {
                each.remove();
            }
        }
        show("map", map);
        try {
            for (Integer each : map.keySet()) {
                map.put(each + 1, "more");
            }
        } catch (ConcurrentModificationException e) {
            show("for", e);
        }
        show("absent", map.putIfAbsent(10, "x") + map.putIfAbsent(11, "x") + map.putIfAbsent(12, "x"));
        show("equal", map.equals(new HashMap<Integer, String>(map)) && new HashMap<Integer, String>(map).equals(map));
        show("clone", map.clone());
        show("copy", new TreeMap<Integer, String>(map.descendingMap()).descendingMap());
        show("value", map.containsValue("x") && !map.containsValue("y"));
        show("entries", map.entrySet().contains(map.firstEntry()) && map.entrySet().remove(map.firstEntry()));
        show("keys", map.keySet().removeAll(Arrays.asList(11, 12, 13)));
        show("map", map);
        map.clear();
        show("cleared", map);
        show("poll", map.pollFirstEntry());
        for (int i = 0; i < 5; i++) {
            try {
                switch (i) {
                    case 0: map.firstKey(); break;
                    case 1: map.lastKey(); break;
                    case 2: map.put(null, "x"); break;
                    case 3: map.get(null); break;
                    default: map.keySet().iterator().next();
                }
                show("no exception", i);
            } catch (RuntimeException e) {
                show("throws", e instanceof NullPointerException ? "NullPointerException" : e.toString());
            }
        }
    }

    /** Parts of parts, whose bounds have to be within those of what they are of. */
    static SortedMap<Integer, String> part(int which) {
        TreeMap<Integer, String> map = tens();
        NavigableMap<Integer, String> middle = map.subMap(20, true, 50, false);
        NavigableMap<Integer, String> down = map.descendingMap().subMap(60, false, 30, true);
        switch (which) {
            case 0: return middle.headMap(80);
            case 1: return middle.headMap(50);
            case 2: return middle.headMap(50, true);
            case 3: return middle.headMap(20);
            case 4: return middle.headMap(19);
            case 5: return middle.tailMap(10);
            case 6: return middle.tailMap(20, false);
            case 7: return middle.tailMap(50, false);
            case 8: return middle.tailMap(50);
            case 9: return middle.subMap(10, 40);
            case 10: return middle.subMap(30, 70);
            case 11: return middle.subMap(10, 90);
            case 12: return middle.subMap(45, 25);
            case 13: return middle.subMap(90, 25);
            case 14: return middle.subMap(25, 50);
            case 15: return map.headMap(50).tailMap(70);
            case 16: return map.headMap(50).tailMap(10).headMap(5);
            case 17: return map.tailMap(30).headMap(10);
            case 18: return map.tailMap(30, false).subMap(30, 70);
            case 19: return map.tailMap(30, false).subMap(30, false, 70, true);
            case 20: return down.headMap(20);
            case 21: return down.headMap(30, true);
            case 22: return down.tailMap(60);
            case 23: return down.tailMap(60, false);
            case 24: return down.subMap(70, 40);
            case 25: return down.subMap(50, 20);
            case 26: return down.subMap(40, 50);
            case 27: return down.descendingMap().headMap(70);
            case 28: return down.descendingMap().tailMap(30).headMap(60);
            default: return map.headMap(-10).tailMap(-20);
        }
    }

    static void parts() {
        for (int i = 0; i < 30; i++) {
            try {
                show("part " + i, part(i));
            } catch (IllegalArgumentException e) {
                show("part " + i, e);
            }
        }
        SortedSet<Integer> set = new TreeSet<Integer>(Arrays.asList(1, 2, 3, 4, 5, 6)).subSet(2, 5);
        try {
            show("part of set", set.headSet(4).tailSet(3));
            show("part of set", set.subSet(1, 4));
        } catch (IllegalArgumentException e) {
            show("part of set", e);
        }
    }

    static void orders() {
        Comparator<String> byLength = new Comparator<String>() {
            public int compare(String one, String other) {
                return one.length() != other.length() ? one.length() - other.length() : one.compareTo(other);
            }
        };
        TreeMap<String, Integer> map = new TreeMap<String, Integer>(byLength);
        TreeMap<String, Integer> natural = new TreeMap<String, Integer>();
        String[] words = {"pear", "fig", "apple", "kiwi", "date", "plum", "banana", "nut", "lime", "quince", "grape", "melon", "olive", "pea", "fig"};
        for (int i = 0; i < words.length; i++) {
            show("put", map.put(words[i], i));
            natural.put(words[i], i);
        }
        show("by length", map);
        show("natural", natural);
        show("order", map.comparator() == byLength && natural.comparator() == null);
        show("sub", natural.subMap("f", "m"));
        show("down", natural.descendingMap().headMap("kiwi"));
        show("down order", natural.descendingMap().comparator().compare("a", "b"));
        show("copy", new TreeMap<String, Integer>((SortedMap<String, Integer>) map));
        show("copy", new TreeMap<String, Integer>((Map<String, Integer>) map));
        try {
            new TreeMap<Object, String>().put(new Object(), "x");
        } catch (ClassCastException e) {
            show("put", "ClassCastException");
        }
    }

    static void many() {
        TreeMap<Integer, Integer> map = new TreeMap<Integer, Integer>();
        Random random = new Random(11);
        long found = 0;
        for (int i = 0; i < 2000; i++) {
            int key = random.nextInt(300);
            if (random.nextInt(3) > 0) {
                map.put(key, i);
            } else {
                Integer old = map.remove(key);
                found = 31 * found + (old == null ? 7 : old);
            }
            if (i % 50 == 0) {
                Integer above = map.higherKey(key);
                found = 31 * found + map.size() + map.firstKey() + (above == null ? 3 : above);
            }
        }
        show("many", found);
        show("many", map);
    }

    static void sets() {
        TreeSet<Integer> set = new TreeSet<Integer>(Arrays.asList(50, 20, 80, 10, 30, 70, 90, 40, 60, 20));
        show("set", set);
        show("add", set.add(55) && !set.add(20) && set.remove(55) && !set.remove(55));
        show("ends", set.first() + 1000 * set.last() + set.size());
        for (int i = 0; i < PROBES.length; i++) {
            int probe = PROBES[i];
            show("lower " + probe, set.lower(probe));
            show("floor " + probe, set.floor(probe));
            show("ceiling " + probe, set.ceiling(probe));
            show("higher " + probe, set.higher(probe));
            show("contains " + probe, set.contains(probe));
        }
        show("down", set.descendingSet());
        show("head", set.headSet(40));
        show("head", set.headSet(40, true));
        show("tail", set.tailSet(40));
        show("tail", set.tailSet(40, false));
        show("sub", set.subSet(20, 60));
        show("sub", set.subSet(20, false, 60, true));
        NavigableSet<Integer> sub = set.subSet(20, true, 60, true);
        show("sub add", sub.add(25) && set.contains(25));
        show("sub poll", sub.pollFirst() + sub.pollLast());
        show("sub size", sub.size());
        try {
            sub.add(99);
        } catch (IllegalArgumentException e) {
            show("sub add", "IllegalArgumentException");
        }
        StringBuilder down = new StringBuilder();
        for (Iterator<Integer> each = set.descendingIterator(); each.hasNext();) {
            int element = each.next();
            down.append(element).append(' ');
            if (element % 3 == 0) {
                each.remove();
            }
        }
        show("down", down);
        show("set", set);
        show("equal", set.equals(new TreeSet<Integer>((SortedSet<Integer>) set)) && set.hashCode() == new java.util.HashSet<Integer>(set).hashCode());
        show("clone", set.clone());
        show("order", set.comparator());
        show("retain", set.retainAll(Arrays.asList(10, 25, 70)));
        show("poll", set.pollFirst() + 1000 * set.pollLast());
        show("set", set);
        set.clear();
        show("poll", set.pollFirst());
        show("empty", set.isEmpty());
        try {
            set.first();
        } catch (RuntimeException e) {
            show("first", e);
        }
        TreeMap<Integer, String> map = tens();
        try {
            map.navigableKeySet().add(1);
        } catch (UnsupportedOperationException e) {
            show("add", e);
        }
        TreeSet<String> words = new TreeSet<String>(java.util.Collections.<String>reverseOrder());
        words.addAll(Arrays.asList("b", "c", "a"));
        show("words", words);
        show("words", new TreeSet<String>((SortedSet<String>) words).first());
        show("words", new TreeSet<String>(Arrays.asList("b", "c", "a")));
    }

    public static void main(String[] args) {
        maps();
        parts();
        orders();
        many();
        sets();
    }
}
