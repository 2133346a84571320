import java.util.ArrayDeque;
import java.util.ArrayList;
import java.util.Collection;
import java.util.Deque;
import java.util.HashMap;
import java.util.HashSet;
import java.util.Iterator;
import java.util.LinkedHashMap;
import java.util.LinkedHashSet;
import java.util.LinkedList;
import java.util.List;
import java.util.ListIterator;
import java.util.Map;
import java.util.NavigableMap;
import java.util.PriorityQueue;
import java.util.Random;
import java.util.Set;
import java.util.TreeMap;
import java.util.TreeSet;
import java.util.Vector;

/** Collections changed at random, some thousand times each, with what they are in between. */
public class Main {
    private static final int TURNS = 1500;
    private static long seen;

    static void see(Object value) {
        seen = 31 * seen + (value == null ? 7 : value.hashCode());
    }

    static void see(boolean value) {
        seen = 31 * seen + (value ? 1 : 2);
    }

    static void show(String kind, int size) {
        System.out.println(kind + ": " + size + " elements, " + seen);
    }

    static void list(String kind, List<Integer> list, Random random) {
        for (int turn = 0; turn < TURNS; turn++) {
            int element = random.nextInt(60);
            int index = random.nextInt(list.size() + 1);
            switch (random.nextInt(12)) {
                case 0: case 1: case 2: list.add(element); break;
                case 3: case 4: list.add(index, element); break;
                case 5: see(list.remove(Integer.valueOf(element))); break;
                case 6: see(index < list.size() ? list.remove(index) : null); break;
                case 7: see(index < list.size() ? list.set(index, element) : null); break;
                case 8: see(list.indexOf(element) + 100 * list.lastIndexOf(element)); break;
                case 9: walk(list, index, random); break;
                case 10: part(list, index, random); break;
                default: see(list.contains(element));
            }
            if (list.size() > 80) {
                list.subList(20, 60).clear();
            }
        }
        see(list);
        show(kind, list.size());
    }

    static void walk(List<Integer> list, int index, Random random) {
        ListIterator<Integer> each = list.listIterator(index);
        for (int step = 0; step < 5; step++) {
            boolean goesOn = random.nextBoolean();
            if (goesOn ? each.hasNext() : each.hasPrevious()) {
                see(goesOn ? each.next() : each.previous());
                switch (random.nextInt(5)) {
                    case 0: each.remove(); break;
                    case 1: each.set(99); break;
                    case 2: each.add(77); break;
                    default: see(each.nextIndex() - each.previousIndex());
                }
            }
        }
    }

    static void part(List<Integer> list, int index, Random random) {
        List<Integer> part = list.subList(index, index + random.nextInt(list.size() - index + 1));
        see(part);
        part.add(5);
        if (part.size() > 3) {
            see(part.remove(1));
            part.addAll(1, part.subList(0, 1).isEmpty() ? part : new ArrayList<Integer>(part.subList(0, 2)));
        }
        see(part.size());
    }

    static void map(String kind, Map<Integer, Integer> map, Random random, boolean areShown) {
        for (int turn = 0; turn < TURNS; turn++) {
            int key = random.nextInt(200) * 37 - 3000;
            switch (random.nextInt(10)) {
                case 0: case 1: case 2: see(map.put(key, turn)); break;
                case 3: case 4: see(map.remove(key)); break;
                case 5: see(map.get(key)); break;
                case 6: see(map.containsKey(key)); break;
                case 7: see(map.putIfAbsent(key, turn)); break;
                case 8: see(map.keySet().remove(key)); break;
                default:
                    Iterator<Integer> keys = map.keySet().iterator();
                    for (int step = random.nextInt(9); step > 0 && keys.hasNext(); step--) {
                        see(keys.next());
                        if (step == 3) {
                            keys.remove();
                        }
                    }
            }
            if (areShown && turn % 100 == 0) {
                for (Map.Entry<Integer, Integer> each : map.entrySet()) {
                    each.setValue(each.getValue() + 1);
                }
            }
            if (turn % 400 == 399) {
                see(map.toString());
                map.clear();
            }
        }
        see(map.toString());
        show(kind, map.size());
    }

    static void parts(NavigableMap<Integer, Integer> map, Random random) {
        for (int turn = 0; turn < TURNS; turn++) {
            int key = random.nextInt(300);
            int other = key + random.nextInt(60);
            NavigableMap<Integer, Integer> part = map.subMap(key, random.nextBoolean(), other, random.nextBoolean());
            if (random.nextBoolean()) {
                part = part.descendingMap();
            }
            map.put(random.nextInt(300), turn);
            int probe = key + random.nextInt(80) - 10;
            see(part.floorKey(probe));
            see(part.higherKey(probe));
            see(part.ceilingEntry(probe));
            see(part.lowerEntry(probe));
            see(part.size());
            if (turn % 7 == 0) {
                see(part.pollFirstEntry());
                see(part.pollLastEntry());
                see(part.toString());
            }
        }
        show("parts", map.size());
    }

    static void set(String kind, Set<String> set, Random random) {
        for (int turn = 0; turn < TURNS; turn++) {
            String element = "e" + random.nextInt(90);
            switch (random.nextInt(5)) {
                case 0: case 1: see(set.add(element)); break;
                case 2: see(set.remove(element)); break;
                case 3: see(set.contains(element)); break;
                default: see(set.size());
            }
        }
        see(set.toString());
        show(kind, set.size());
    }

    static void deque(String kind, Deque<Integer> deque, Random random) {
        for (int turn = 0; turn < TURNS; turn++) {
            int element = random.nextInt(40);
            switch (random.nextInt(10)) {
                case 0: deque.addFirst(element); break;
                case 1: case 2: deque.addLast(element); break;
                case 3: see(deque.pollFirst()); break;
                case 4: see(deque.pollLast()); break;
                case 5: see(deque.peekFirst()); break;
                case 6: see(deque.removeFirstOccurrence(element)); break;
                case 7: see(deque.removeLastOccurrence(element)); break;
                case 8: deque.push(element); break;
                default:
                    Iterator<Integer> each = deque.descendingIterator();
                    for (int step = random.nextInt(6); step > 0 && each.hasNext(); step--) {
                        see(each.next());
                        if (step == 2) {
                            each.remove();
                        }
                    }
            }
        }
        see(deque.toString());
        show(kind, deque.size());
    }

    static void queue(PriorityQueue<Integer> queue, Random random) {
        for (int turn = 0; turn < TURNS; turn++) {
            int element = random.nextInt(50);
            switch (random.nextInt(6)) {
                case 0: case 1: case 2: queue.add(element); break;
                case 3: see(queue.poll()); break;
                case 4: see(queue.remove(Integer.valueOf(element))); break;
                default:
                    Iterator<Integer> each = queue.iterator();
                    for (int step = random.nextInt(20); step > 0 && each.hasNext(); step--) {
                        see(each.next());
                        if (step % 5 == 2) {
                            each.remove();
                        }
                    }
            }
        }
        see(queue.toString());
        show("PriorityQueue", queue.size());
    }

    static void bulk(Random random) {
        Collection<Integer> all = new ArrayList<Integer>();
        for (int turn = 0; turn < 150; turn++) {
            Set<Integer> some = new HashSet<Integer>();
            for (int i = random.nextInt(20); i > 0; i--) {
                some.add(random.nextInt(40));
            }
            switch (random.nextInt(4)) {
                case 0: case 1: see(all.addAll(some)); break;
                case 2: see(all.removeAll(some)); break;
                default: see(turn % 5 == 0 ? all.retainAll(new TreeSet<Integer>(some)) : all.containsAll(some));
            }
            see(all.toString());
        }
        show("bulk", all.size());
    }

    public static void main(String[] args) {
        Random random = new Random(20);
        list("ArrayList", new ArrayList<Integer>(), random);
        list("LinkedList", new LinkedList<Integer>(), random);
        list("Vector", new Vector<Integer>(), random);
        map("HashMap", new HashMap<Integer, Integer>(), random, false);
        map("HashMap, shown", new HashMap<Integer, Integer>(), random, true);
        map("LinkedHashMap", new LinkedHashMap<Integer, Integer>(), random, false);
        map("TreeMap", new TreeMap<Integer, Integer>(), random, false);
        map("TreeMap, shown", new TreeMap<Integer, Integer>(), random, true);
        map("TreeMap down", new TreeMap<Integer, Integer>().descendingMap(), random, true);
        parts(new TreeMap<Integer, Integer>(), random);
        set("HashSet", new HashSet<String>(), random);
        set("LinkedHashSet", new LinkedHashSet<String>(), random);
        set("TreeSet", new TreeSet<String>(), random);
        deque("ArrayDeque", new ArrayDeque<Integer>(), random);
        deque("LinkedList", new LinkedList<Integer>(), random);
        queue(new PriorityQueue<Integer>(), random);
        bulk(random);
    }
}
