import java.util.ArrayList;
import java.util.Collection;
import java.util.Collections;
import java.util.HashMap;
import java.util.Iterator;
import java.util.LinkedHashMap;
import java.util.LinkedHashSet;
import java.util.LinkedList;
import java.util.List;
import java.util.ListIterator;
import java.util.Map;
import java.util.PriorityQueue;
import java.util.Random;
import java.util.TreeMap;
import java.util.TreeSet;

/** Two iterators of a collection in turn, which is changed by them and beside them: what each step gives or throws. */
public class Main {
    private final Random random;
    private final Collection<Integer> collection;
    private final boolean isMade;
    private final StringBuilder line = new StringBuilder();

    Main(long seed, Collection<Integer> collection, boolean isMade) {
        random = new Random(seed);
        this.collection = collection;
        this.isMade = isMade;
        for (int i = 0; i < 8 && isMade; i++) {
            collection.add(random.nextInt(20));
        }
    }

    /** An iterator, and where it was asked for, the same as one of a list. */
    static class Walk {
        final Iterator<Integer> each;
        final ListIterator<Integer> list;

        Walk(Iterator<Integer> each, ListIterator<Integer> list) {
            this.each = each;
            this.list = list;
        }
    }

    Walk walk() {
        if (collection instanceof List && random.nextBoolean()) {
            ListIterator<Integer> list = ((List<Integer>) collection).listIterator(random.nextInt(collection.size() + 1));
            return new Walk(list, list);
        }
        return new Walk(collection.iterator(), null);
    }

    void step(Walk walk) {
        Iterator<Integer> each = walk.each;
        ListIterator<Integer> list = walk.list;
        int value = random.nextInt(20);
        int kind = random.nextInt(list != null ? 12 : 8);
        line.append(' ').append(kind);
        switch (kind) {
            case 0:
                line.append(isMade ? collection.add(value) : collection.remove(value + 1));
                break;
            case 1:
                line.append(random.nextInt(3) == 0 && collection.remove((Object) value));
                break;
            case 2:
                each.remove();
                break;
            case 3:
                line.append(each.hasNext());
                break;
            case 8:
                list.add(value);
                break;
            case 9:
                list.set(value);
                break;
            case 10:
                line.append(list.previous().intValue());
                break;
            case 11:
                line.append(list.hasPrevious()).append(list.nextIndex()).append(list.previousIndex());
                break;
            default:
                line.append(':').append(each.next().intValue());
        }
    }

    String run() {
        Walk one = walk();
        Walk other = walk();
        for (int i = 0; i < 24; i++) {
            try {
                step(random.nextInt(5) < 4 ? one : other);
            } catch (RuntimeException e) {
                line.append(e.toString());
                one = walk();
                if (random.nextBoolean()) {
                    other = walk();
                }
            }
        }
        return line.append(' ').append(collection.toString()).toString();
    }

    static Collection<Integer> keys(Map<Integer, Integer> map, int seed) {
        for (int i = 0; i < 9; i++) {
            map.put(i * seed % 23, i);
        }
        return map.keySet();
    }

    static Collection<Integer> values(Map<Integer, Integer> map, int seed) {
        keys(map, seed);
        return map.values();
    }

    static List<Integer> part(List<Integer> whole) {
        for (int i = 0; i < 6; i++) {
            whole.add(-i);
        }
        return whole.subList(2, 4);
    }

    public static void main(String[] args) {
        for (int seed = 1; seed <= 12; seed++) {
            System.out.println("array list" + new Main(seed, new ArrayList<Integer>(), true).run());
            System.out.println("linked list" + new Main(seed, new LinkedList<Integer>(), true).run());
            System.out.println("part of array list" + new Main(seed, part(new ArrayList<Integer>()), true).run());
            System.out.println("part of part" + new Main(seed, part(part(new ArrayList<Integer>())), true).run());
            System.out.println("tree set" + new Main(seed, new TreeSet<Integer>(), true).run());
            System.out.println("descending" + new Main(seed, new TreeSet<Integer>().descendingSet(), true).run());
            System.out.println("part of tree" + new Main(seed, new TreeSet<Integer>().subSet(-1, 100), true).run());
            System.out.println("linked set" + new Main(seed, new LinkedHashSet<Integer>(), true).run());
            System.out.println("queue" + new Main(seed, new PriorityQueue<Integer>(), true).run());
            System.out.println("keys" + new Main(seed, keys(new HashMap<Integer, Integer>(), seed), false).run());
            System.out.println("values" + new Main(seed, values(new TreeMap<Integer, Integer>(), seed), false).run());
            System.out.println("linked values" + new Main(seed, values(new LinkedHashMap<Integer, Integer>(), seed), false).run());
            System.out.println("fixed" + new Main(seed, Collections.unmodifiableList(part(new ArrayList<Integer>())), false).run());
        }
    }
}
