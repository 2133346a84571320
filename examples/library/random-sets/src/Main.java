import java.util.ArrayList;
import java.util.Arrays;
import java.util.Collections;
import java.util.Comparator;
import java.util.HashSet;
import java.util.Iterator;
import java.util.LinkedHashSet;
import java.util.List;
import java.util.NavigableSet;
import java.util.Random;
import java.util.Set;
import java.util.TreeSet;

/** Many random steps on sets, and sorts and searches of random arrays and lists. */
public class Main {
    private static final Comparator<Integer> BY_LAST_DIGIT = new Comparator<Integer>() {
        public int compare(Integer one, Integer other) {
            return Math.abs(one % 10) - Math.abs(other % 10);
        }
    };

    private final Random random;
    private long sum;

    Main(long seed) {
        random = new Random(seed);
    }

    void note(Object value) {
        sum = sum * 31 + (value == null ? 17 : value.hashCode());
    }

    Set<Integer> some() {
        Set<Integer> some = new HashSet<Integer>();
        for (int i = random.nextInt(6); i >= 0; i--) {
            some.add(random.nextInt(60) - 20);
        }
        return some;
    }

    void step(Set<Integer> set) {
        Integer value = random.nextInt(60) - 20;
        switch (random.nextInt(10)) {
            case 0:
            case 1:
            case 2:
                note(set.add(value));
                break;
            case 3:
                note(set.remove(value));
                break;
            case 4:
                note(set.contains(value));
                break;
            case 5:
                note(set.addAll(some()));
                break;
            case 6:
                note(set.removeAll(some()));
                break;
            case 7:
                note(set.containsAll(some()));
                note(set.equals(new TreeSet<Integer>(set)));
                break;
            case 8:
                note(random.nextInt(20) == 0 && set.retainAll(some()));
                break;
            default:
                for (Iterator<Integer> each = set.iterator(); each.hasNext();) {
                    note(each.next());
                    if (random.nextInt(10) == 0) {
                        each.remove();
                    }
                }
        }
    }

    void ends(NavigableSet<Integer> set) {
        Integer value = random.nextInt(60) - 20;
        Integer end = value + random.nextInt(12);
        note(set.floor(value));
        note(set.ceiling(value));
        note(set.lower(value));
        note(set.higher(value));
        note(set.headSet(value).size());
        note(set.tailSet(value, false).toString());
        try {
            note(set.subSet(value, true, end, random.nextBoolean()).descendingSet().toString());
        } catch (IllegalArgumentException e) {
            note(e.getMessage());
        }
        if (random.nextInt(10) == 0) {
            note(set.pollFirst());
            note(set.descendingSet().pollFirst());
            set.headSet(set.isEmpty() ? value : set.first(), true).clear();
        }
    }

    static void sorts(int seed, int length) {
        Random random = new Random(seed);
        int[] ints = new int[length];
        long[] longs = new long[length];
        char[] chars = new char[length];
        Integer[] boxes = new Integer[length];
        for (int i = 0; i < length; i++) {
            ints[i] = random.nextInt(seed % 2 == 0 ? 10 : 1000000) - 5;
            longs[i] = random.nextLong() >> random.nextInt(60);
            chars[i] = (char) ('a' + random.nextInt(26));
            boxes[i] = ints[i];
        }
        List<Integer> list = new ArrayList<Integer>(Arrays.asList(boxes));
        Arrays.sort(ints);
        Arrays.sort(longs);
        Arrays.sort(chars);
        Arrays.sort(boxes, BY_LAST_DIGIT);
        Collections.sort(list, Collections.reverseOrder(BY_LAST_DIGIT));
        System.out.println(length + ": " + Arrays.hashCode(ints) + " " + Arrays.hashCode(longs) + " " + Arrays.hashCode(chars) + " " + Arrays.hashCode(boxes)
            + " " + list.hashCode() + " " + (length > 0 ? Arrays.binarySearch(ints, ints[length / 2]) >= 0 : false) + " " + Arrays.binarySearch(longs, 77L));
        Collections.sort(list);
        System.out.println(Arrays.equals(list.toArray(), boxes) + " " + list.hashCode() + " " + Collections.binarySearch(list, -6));
    }

    public static void main(String[] args) {
        for (int seed = 1; seed <= 4; seed++) {
            List<Set<Integer>> sets = new ArrayList<Set<Integer>>();
            sets.add(new HashSet<Integer>());
            sets.add(new LinkedHashSet<Integer>());
            sets.add(new TreeSet<Integer>());
            sets.add(new TreeSet<Integer>(Collections.<Integer>reverseOrder()));
            sets.add(new TreeSet<Integer>().descendingSet());
            for (Set<Integer> set : sets) {
                Main main = new Main(seed);
                for (int i = 0; i < 200; i++) {
                    main.step(set);
                    if (set instanceof NavigableSet) {
                        main.ends((NavigableSet<Integer>) set);
                    }
                    main.note(set.size());
                    if (i % 50 == 49) {
                        main.note(set);
                        System.out.println(seed + "/" + i + ": " + main.sum + " " + set.toString());
                    }
                }
            }
            for (int length = 0; length < 200; length = length * 2 + 1) {
                sorts(seed, length);
            }
        }
    }
}
