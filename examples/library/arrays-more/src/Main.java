import java.util.AbstractMap;
import java.util.ArrayList;
import java.util.Arrays;
import java.util.Collections;
import java.util.Comparator;
import java.util.LinkedHashMap;
import java.util.LinkedHashSet;
import java.util.List;
import java.util.Map;
import java.util.PriorityQueue;
import java.util.Random;
import java.util.Vector;

/** What the programs `arrays`, `lists` and `maps` leave out: parts of arrays of each type, and further constructors. */
public class Main {
    static final Comparator<Integer> BACKWARDS = new Comparator<Integer>() {
        public int compare(Integer one, Integer other) {
            return other.compareTo(one);
        }
    };

    static void fills() {
        long[] longs = new long[6];
        Arrays.fill(longs, 1, 4, -7L);
        short[] shorts = new short[5];
        Arrays.fill(shorts, 0, 5, (short) 9);
        char[] chars = {'a', 'b', 'c', 'd'};
        Arrays.fill(chars, 2, 2, 'x');
        Arrays.fill(chars, 3, 4, 'y');
        byte[] bytes = new byte[3];
        Arrays.fill(bytes, (byte) -1);
        boolean[] booleans = new boolean[4];
        Arrays.fill(booleans, 1, 3, true);
        System.out.println(Arrays.toString(longs) + Arrays.toString(shorts) + Arrays.toString(chars) + Arrays.toString(bytes) + Arrays.toString(booleans));
        try {
            Arrays.fill(longs, 3, 2, 0L);
        } catch (IllegalArgumentException e) {
            System.out.println(e.getMessage());
        }
        try {
            Arrays.fill(booleans, 2, 5, false);
        } catch (ArrayIndexOutOfBoundsException e) {
            System.out.println("out of bounds, " + Arrays.toString(booleans));
        }
    }

    static void sorts() {
        Random random = new Random(3);
        for (int length = 0; length <= 40; length += 8) {
            long[] longs = new long[length];
            short[] shorts = new short[length];
            byte[] bytes = new byte[length];
            Integer[] boxes = new Integer[length];
            for (int i = 0; i < length; i++) {
                longs[i] = random.nextLong() >> 40;
                shorts[i] = (short) random.nextInt(50);
                bytes[i] = (byte) random.nextInt();
                boxes[i] = 2 * i;
            }
            int start = length / 4;
            int end = length - length / 4;
            Arrays.sort(longs, start, end);
            Arrays.sort(shorts, start, end);
            Arrays.sort(bytes, start, end);
            System.out.println(Arrays.toString(longs) + Arrays.toString(shorts) + Arrays.toString(bytes));
            if (length > 0) {
                System.out.println(Arrays.binarySearch(longs, start, end, longs[start]) + " " + Arrays.binarySearch(longs, start, end, Long.MAX_VALUE) + " "
                    + Arrays.binarySearch(shorts, start, end, (short) 25) + " " + Arrays.binarySearch(bytes, start, end, (byte) 0) + " "
                    + Arrays.binarySearch(boxes, start, end, (Object) 17) + " " + Arrays.binarySearch(boxes, start, end, (Object) (2 * start)));
                Arrays.sort(boxes, BACKWARDS);
                System.out.println(Arrays.binarySearch(boxes, start, end, 17, BACKWARDS) + " " + Arrays.binarySearch(boxes, 0, length, 0, BACKWARDS));
            }
        }
        System.out.println(Arrays.binarySearch(new char[] {'b', 'd', 'f'}, 'd') + " " + Arrays.binarySearch(new char[] {'b', 'd', 'f'}, 'e'));
        try {
            Arrays.sort(new long[4], 2, 9);
        } catch (ArrayIndexOutOfBoundsException e) {
            System.out.println("out of bounds");
        }
    }

    static void constructors() {
        Map<Integer, String> map = new LinkedHashMap<Integer, String>(2);
        LinkedHashSet<Integer> set = new LinkedHashSet<Integer>(1);
        PriorityQueue<Integer> small = new PriorityQueue<Integer>(1);
        PriorityQueue<Integer> back = new PriorityQueue<Integer>(BACKWARDS);
        Vector<Integer> vector = new Vector<Integer>(0);
        for (int i = 20; i > 0; i -= 3) {
            map.put(i, "n" + i);
            set.add(i % 6);
            small.add(i);
            back.add(i);
            vector.add(i);
        }
        System.out.println(map.toString() + set.toString() + small.toString() + back.toString() + vector.toString() + new Vector<Integer>(set).toString());
        System.out.println(small.poll().toString() + " " + back.poll().toString() + " " + (back.comparator() == BACKWARDS));
        for (Map.Entry<Integer, String> entry : map.entrySet()) {
            AbstractMap.SimpleEntry<Integer, String> copy = new AbstractMap.SimpleEntry<Integer, String>(entry);
            AbstractMap.SimpleImmutableEntry<Integer, String> fixed = new AbstractMap.SimpleImmutableEntry<Integer, String>(entry.getKey(), "f");
            copy.setValue("x");
            try {
                fixed.setValue("y");
            } catch (UnsupportedOperationException e) {
                System.out.print(copy.toString() + " " + fixed.toString() + " " + copy.equals(entry) + " " + (copy.hashCode() == entry.hashCode()) + "; ");
            }
        }
        System.out.println();
        try {
            new PriorityQueue<Integer>(0);
        } catch (IllegalArgumentException e) {
            System.out.println("no room: " + e.getMessage());
        }
        try {
            new Vector<Integer>(-1);
        } catch (IllegalArgumentException e) {
            System.out.println(e.getMessage());
        }
        try {
            new LinkedHashMap<Integer, String>(-1);
        } catch (IllegalArgumentException e) {
            System.out.println(e.getMessage());
        }
        List<Integer> shuffled = new ArrayList<Integer>(vector);
        Collections.shuffle(shuffled);
        Collections.sort(shuffled, BACKWARDS);
        System.out.println(shuffled.equals(vector));
        int number = new Random().nextInt(5);
        System.out.println(0 <= number && number < 5);
    }

    public static void main(String[] args) {
        fills();
        sorts();
        constructors();
    }
}
