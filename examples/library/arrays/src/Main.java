import java.util.Arrays;
import java.util.Collections;
import java.util.Comparator;
import java.util.List;
import java.util.Objects;
import java.util.Random;

/** Each method of Arrays, Objects and Random, with ordinary and edge arguments. */
public class Main {
    static void show(String what, Object value) {
        System.out.println(what + " = " + (value == null ? "null" : value.toString()));
    }

    static void show(String what, long value) {
        System.out.println(what + " = " + value);
    }

    static void show(String what, boolean value) {
        System.out.println(what + " = " + value);
    }

    static void ints() {
        int[] some = {5, -3, 9, 0, 5, Integer.MIN_VALUE, Integer.MAX_VALUE, 7};
        int[] copy = Arrays.copyOf(some, 10);
        show("copy", Arrays.toString(copy));
        show("cut", Arrays.toString(Arrays.copyOf(some, 3)));
        show("part", Arrays.toString(Arrays.copyOfRange(some, 2, 5)));
        show("past", Arrays.toString(Arrays.copyOfRange(some, 6, 10)));
        show("none", Arrays.toString(Arrays.copyOfRange(some, 8, 8)));
        show("equals", Arrays.equals(some, copy) || !Arrays.equals(some, Arrays.copyOf(some, 8)) || Arrays.equals(some, null));
        show("hash", Arrays.hashCode(some));
        Arrays.sort(copy, 2, 6);
        show("sorted part", Arrays.toString(copy));
        Arrays.sort(copy);
        show("sorted", Arrays.toString(copy));
        show("search", Arrays.binarySearch(copy, 7) + 100 * Arrays.binarySearch(copy, 8) + 10000 * Arrays.binarySearch(copy, 1, 4, 0));
        Arrays.fill(copy, 1, 3, 77);
        show("filled", Arrays.toString(copy));
        Arrays.fill(copy, 1);
        show("filled", Arrays.toString(copy));
        show("null", Arrays.toString((int[]) null) + Arrays.hashCode((int[]) null) + Arrays.equals((int[]) null, null));
        show("empty", Arrays.toString(new int[0]) + Arrays.hashCode(new int[0]));
        for (int i = 0; i < 6; i++) {
            try {
                switch (i) {
                    case 0: Arrays.sort(some, 3, 2); break;
                    case 1: Arrays.sort(some, -1, 2); break;
                    case 2: Arrays.fill(some, 0, 99, 1); break;
                    case 3: Arrays.copyOfRange(some, 4, 3); break;
                    case 4: Arrays.binarySearch(some, 0, 9, 1); break;
                    default: Arrays.fill(some, 7, 3, 1);
                }
            } catch (RuntimeException e) {
                show("throws", e);
            }
        }
        try {
            Arrays.copyOfRange(some, 9, 12);
        } catch (ArrayIndexOutOfBoundsException e) {
            show("throws", "out of bounds");
        }
        try {
            Arrays.copyOf(some, -1);
        } catch (NegativeArraySizeException e) {
            show("throws", "negative");
        }
    }

    static void others() {
        long[] longs = {5, -3, 1L << 40, 0, Long.MIN_VALUE};
        Arrays.sort(longs);
        show("longs", Arrays.toString(longs) + Arrays.hashCode(longs) + Arrays.binarySearch(longs, 5L) + Arrays.toString(Arrays.copyOf(longs, 2)));
        Arrays.fill(longs, 3L);
        show("longs", Arrays.toString(Arrays.copyOfRange(longs, 3, 7)) + Arrays.equals(longs, longs));
        short[] shorts = {5, -3, 32767, 0, -32768};
        Arrays.sort(shorts);
        show("shorts", Arrays.toString(shorts) + Arrays.hashCode(shorts) + Arrays.binarySearch(shorts, (short) 5) + Arrays.toString(Arrays.copyOf(shorts, 2)));
        Arrays.fill(shorts, (short) 3);
        show("shorts", Arrays.toString(Arrays.copyOfRange(shorts, 3, 7)) + Arrays.equals(shorts, shorts));
        char[] chars = {'x', 'b', 'k', '\u00ff', 'A'};
        Arrays.sort(chars, 0, 3);
        show("chars", Arrays.toString(Arrays.copyOf(chars, 3)) + Arrays.hashCode(chars) + Arrays.binarySearch(chars, 0, 3, 'k'));
        Arrays.fill(chars, 'c');
        show("chars", Arrays.toString(Arrays.copyOfRange(chars, 3, 5)) + Arrays.equals(chars, chars));
        byte[] bytes = {5, -3, 127, 0, -128};
        Arrays.sort(bytes);
        show("bytes", Arrays.toString(bytes) + Arrays.hashCode(bytes) + Arrays.binarySearch(bytes, (byte) 5) + Arrays.toString(Arrays.copyOf(bytes, 2)));
        Arrays.fill(bytes, 1, 2, (byte) 3);
        show("bytes", Arrays.toString(Arrays.copyOfRange(bytes, 3, 7)) + Arrays.equals(bytes, bytes));
        boolean[] booleans = {true, false};
        show("booleans", Arrays.toString(Arrays.copyOf(booleans, 4)) + Arrays.hashCode(booleans) + Arrays.equals(booleans, Arrays.copyOfRange(booleans, 0, 2)));
        Arrays.fill(booleans, true);
        show("booleans", Arrays.toString(booleans));
    }

    static void objects() {
        String[] words = {"pear", "fig", "apple", "kiwi", "date", "plum", "banana", "nut", "lime", "quince", "grape", "melon", "olive", "pea", "fig"};
        Comparator<String> byLength = new Comparator<String>() {
            public int compare(String one, String other) {
                return one.length() - other.length();
            }
        };
        Arrays.sort(words, byLength);
        show("by length", Arrays.toString(words));
        Arrays.sort(words, 0, 7);
        show("part", Arrays.toString(words));
        Arrays.sort(words);
        show("sorted", Arrays.toString(words));
        show("search", Arrays.binarySearch(words, "kiwi") + 100 * Arrays.binarySearch(words, "cherry"));
        Arrays.sort(words, Collections.<String>reverseOrder());
        show("down", Arrays.toString(words));
        show("search", Arrays.binarySearch(words, "kiwi", Collections.<String>reverseOrder()));
        Arrays.sort(words, 3, 12, byLength);
        show("part", Arrays.toString(words));
        show("hash", Arrays.hashCode(words));
        show("equals", Arrays.equals(words, new String[] {"a"}) || Arrays.equals(words, null));
        Object[] mixed = {1, "two", null, 'c', 4L, true};
        show("mixed", Arrays.toString(mixed) + Arrays.hashCode(mixed) + Arrays.equals(mixed, Arrays.asList(mixed).toArray()));
        try {
            Arrays.sort(mixed);
        } catch (ClassCastException e) {
            show("sort", "ClassCastException");
        }
        try {
            Arrays.sort(new Object[] {"a", null});
        } catch (NullPointerException e) {
            show("sort", "NullPointerException");
        }
        Arrays.fill(mixed, 1, 4, "f");
        show("filled", Arrays.toString(mixed));
        Arrays.fill(mixed, null);
        show("filled", Arrays.toString(mixed));
        Integer[] numbers = {5, 3, 9, 1};
        Arrays.sort(numbers);
        List<Integer> list = Arrays.asList(numbers);
        show("list", list);
        show("set", list.set(1, 33));
        show("through", Arrays.toString(numbers));
        show("found", list.indexOf(33) + 10 * list.size() + (list.contains(9) ? 100 : 0));
        try {
            list.add(1);
        } catch (UnsupportedOperationException e) {
            show("add", e);
        }
        try {
            list.remove(0);
        } catch (UnsupportedOperationException e) {
            show("remove", e);
        }
    }

    static void deep() {
        int[][] table = {{1, 2}, {3}, {}, null};
        Object[] all = {table, "x", new long[] {1}, new char[] {'c'}, new boolean[] {true}, new byte[] {2}, new short[] {3}, new String[] {"s", null}, null, 7};
        show("deep", Arrays.deepToString(all));
        show("hash", Arrays.deepHashCode(all));
        Object[] same = {new int[][] {{1, 2}, {3}, {}, null}, "x", new long[] {1}, new char[] {'c'}, new boolean[] {true}, new byte[] {2}, new short[] {3},
            new String[] {"s", null}, null, 7};
        show("equals", Arrays.deepEquals(all, same) && !Arrays.equals(all, same));
        table[1][0] = 4;
        show("equals", Arrays.deepEquals(all, same) || Arrays.deepEquals(all, null));
        Object[] itself = {1, null};
        itself[1] = itself;
        show("itself", Arrays.deepToString(itself));
        show("null", Arrays.deepToString(null) + Arrays.deepHashCode(null));
    }

    static void random() {
        long[] seeds = {0, 1, 42, -7, 1L << 47, Long.MAX_VALUE};
        for (int i = 0; i < seeds.length; i++) {
            Random random = new Random(seeds[i]);
            StringBuilder line = new StringBuilder();
            for (int j = 0; j < 5; j++) {
                line.append(random.nextInt()).append(' ').append(random.nextInt(10)).append(' ').append(random.nextInt(64)).append(' ');
                line.append(random.nextInt((1 << 30) + 1)).append(' ').append(random.nextLong()).append(' ').append(random.nextBoolean()).append(' ');
            }
            byte[] bytes = new byte[7];
            random.nextBytes(bytes);
            show("random", line.append(Arrays.toString(bytes)));
            random.setSeed(5);
            show("random", random.nextInt());
        }
        try {
            new Random(1).nextInt(0);
        } catch (IllegalArgumentException e) {
            show("bound", e);
        }
        int[] large = new int[3000];
        long[] larger = new long[2000];
        Integer[] boxes = new Integer[1000];
        Random random = new Random(99);
        for (int i = 0; i < large.length; i++) {
            large[i] = random.nextInt(1000) - 500;
        }
        for (int i = 0; i < larger.length; i++) {
            larger[i] = random.nextLong();
        }
        for (int i = 0; i < boxes.length; i++) {
            boxes[i] = random.nextInt(100);
        }
        Arrays.sort(large);
        Arrays.sort(larger);
        Arrays.sort(boxes);
        show("large", Arrays.hashCode(large));
        show("larger", Arrays.hashCode(larger));
        show("boxes", Arrays.hashCode(boxes));
        int[] ordered = new int[5000];
        for (int i = 0; i < ordered.length; i++) {
            ordered[i] = i % 2 == 0 ? i : 5000 - i;
        }
        Arrays.sort(ordered);
        Arrays.sort(ordered);
        show("ordered", Arrays.hashCode(ordered));
    }

    static void nulls() {
        show("equals", Objects.equals(null, null) && !Objects.equals(null, "a") && Objects.equals("a", "a") && !Objects.equals("a", null));
        show("hash", Objects.hash(1, "a", null) + Objects.hashCode(null) + Objects.hashCode("b"));
        show("text", Objects.toString(null) + Objects.toString("a") + Objects.toString(null, "none") + Objects.toString("b", "none"));
        show("null", Objects.isNull(null) && Objects.nonNull("a"));
        show("there", Objects.requireNonNull("a"));
        try {
            Objects.requireNonNull(null);
        } catch (NullPointerException e) {
            show("null", e);
        }
        try {
            Objects.requireNonNull(null, "no name");
        } catch (NullPointerException e) {
            show("null", e);
        }
        show("compare", Objects.compare("b", "a", Collections.<String>reverseOrder()) + 10 * Objects.compare(null, null, null));
    }

    public static void main(String[] args) {
        ints();
        others();
        objects();
        deep();
        random();
        nulls();
    }
}
