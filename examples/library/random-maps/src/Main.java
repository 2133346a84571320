import java.util.ArrayList;
import java.util.Collection;
import java.util.Collections;
import java.util.HashMap;
import java.util.Iterator;
import java.util.LinkedHashMap;
import java.util.List;
import java.util.Map;
import java.util.NavigableMap;
import java.util.Random;
import java.util.TreeMap;

/** Many random steps on maps and their views; what each step gives goes into a sum that is printed now and then, with the order of iteration. */
public class Main {
    /** A key of few hash codes. */
    static final class Key implements Comparable<Key> {
        final int number;

        Key(int number) {
            this.number = number;
        }

        public int compareTo(Key other) {
            return number - other.number;
        }

        @Override
        public boolean equals(Object other) {
            return other instanceof Key && ((Key) other).number == number;
        }

        @Override
        public int hashCode() {
            return number % 5;
        }

        @Override
        public String toString() {
            return "k" + number;
        }
    }

    private final Random random;
    private long sum;

    Main(long seed) {
        random = new Random(seed);
    }

    void note(Object value) {
        sum = sum * 31 + (value == null ? 17 : value.hashCode());
    }

    <K> void step(Map<K, Integer> map, List<K> keys) {
        K key = keys.get(random.nextInt(keys.size()));
        Integer value = random.nextInt(10) == 0 ? null : Integer.valueOf(random.nextInt(1000));
        switch (random.nextInt(14)) {
            case 0:
            case 1:
            case 2:
            case 3:
            case 4:
                note(map.put(key, value));
                break;
            case 5:
                note(map.remove(key));
                break;
            case 6:
                note(map.get(key));
                note(map.containsKey(key));
                break;
            case 7:
                note(map.containsValue(value));
                break;
            case 8:
                note(map.keySet().remove(key));
                break;
            case 9:
                note(map.values().remove(value));
                break;
            case 10:
                for (Iterator<Map.Entry<K, Integer>> each = map.entrySet().iterator(); each.hasNext();) {
                    Map.Entry<K, Integer> entry = each.next();
                    note(entry);
                    if (random.nextInt(8) == 0) {
                        each.remove();
                    } else if (random.nextInt(8) == 0) {
                        note(entry.setValue(value));
                    }
                }
                break;
            case 11:
                Map<K, Integer> more = new LinkedHashMap<K, Integer>();
                for (int i = 0; i < 3; i++) {
                    more.put(keys.get(random.nextInt(keys.size())), i);
                }
                map.putAll(more);
                break;
            case 12:
                note(map.keySet().retainAll(keys.subList(random.nextInt(3), keys.size())));
                break;
            default:
                note(map.equals(new HashMap<K, Integer>(map)));
                note(map.entrySet().contains(new HashMap<K, Integer>(map).entrySet()));
        }
    }

    <K> void ends(NavigableMap<K, Integer> map, List<K> keys) {
        K key = keys.get(random.nextInt(keys.size()));
        K other = keys.get(random.nextInt(keys.size()));
        boolean isIn = random.nextBoolean();
        try {
            switch (random.nextInt(10)) {
                case 0:
                    note(map.floorKey(key));
                    note(map.ceilingKey(key));
                    break;
                case 1:
                    note(map.lowerEntry(key));
                    note(map.higherEntry(key));
                    break;
                case 2:
                    note(map.headMap(key, isIn));
                    break;
                case 3:
                    note(map.tailMap(key, isIn));
                    break;
                case 4:
                    NavigableMap<K, Integer> part = map.subMap(key, isIn, other, !isIn);
                    note(part.size());
                    note(part.firstEntry());
                    note(part.lastEntry());
                    note(part.descendingMap().toString());
                    note(part.pollFirstEntry());
                    note(part.put(other, 5));
                    break;
                case 5:
                    note(random.nextInt(6) == 0 ? map.pollLastEntry() : map.lastEntry());
                    break;
                case 6:
                    note(map.descendingMap().headMap(key).toString());
                    note(map.descendingKeySet().toString());
                    break;
                case 7:
                    map.subMap(key, other).clear();
                    break;
                case 8:
                    note(map.navigableKeySet().subSet(key, true, other, true).toString());
                    break;
                default:
                    note(map.firstKey());
                    note(map.lastKey());
            }
        } catch (IllegalArgumentException e) {
            note("argument");
        } catch (java.util.NoSuchElementException e) {
            note("element");
        }
    }

    static <K> void run(String name, int seed, Map<K, Integer> map, List<K> keys) {
        Main main = new Main(seed);
        for (int i = 0; i < 300; i++) {
            main.step(map, keys);
            if (map instanceof NavigableMap) {
                main.ends((NavigableMap<K, Integer>) map, keys);
            }
            main.note(map.size());
            if (i % 75 == 74) {
                main.note(map);
                System.out.println(name + " " + seed + "/" + i + ": " + main.sum + " " + map.toString());
            }
        }
        Collection<Integer> values = map.values();
        System.out.println(name + " " + values.size() + " " + new ArrayList<Integer>(values).toString() + " " + map.hashCode());
        map.clear();
        System.out.println(map.toString() + " " + map.isEmpty());
    }

    public static void main(String[] args) {
        List<Key> keys = new ArrayList<Key>();
        List<String> names = new ArrayList<String>();
        List<Long> longs = new ArrayList<Long>();
        for (int i = 0; i < 30; i++) {
            keys.add(new Key(i * 7 % 31));
            names.add("name" + i * i);
            longs.add(((long) i * i << 29) - 5000000000L);
        }
        List<String> withNull = new ArrayList<String>(names);
        withNull.add(null);
        for (int seed = 1; seed <= 3; seed++) {
            run("hash", seed, new HashMap<String, Integer>(), withNull);
            run("hash keys", seed, new HashMap<Key, Integer>(1), keys);
            run("hash longs", seed, new HashMap<Long, Integer>(100), longs);
            run("linked", seed, new LinkedHashMap<String, Integer>(), withNull);
            run("tree", seed, new TreeMap<String, Integer>(), names);
            run("tree keys", seed, new TreeMap<Key, Integer>(Collections.<Key>reverseOrder()), keys);
            run("part", seed, new TreeMap<Long, Integer>().descendingMap(), longs);
        }
    }
}
