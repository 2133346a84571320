import java.util.ArrayDeque;
import java.util.Arrays;
import java.util.BitSet;
import java.util.Collections;
import java.util.Deque;
import java.util.Iterator;
import java.util.LinkedList;
import java.util.NoSuchElementException;
import java.util.PriorityQueue;
import java.util.Queue;
import java.util.StringTokenizer;
import java.util.TreeSet;

/** Each method of ArrayDeque, PriorityQueue, BitSet and StringTokenizer, with ordinary and edge arguments. */
public class Main {
    static void show(String what, Object value) {
        System.out.println(what + " = " + (value == null ? "null" : value.toString()));
    }

    static void show(String what, long value) {
        System.out.println(what + " = " + value);
    }

    static void show(String what, boolean value) {
        System.out.println(what + " = " + value);
    }

    static void deque(String kind, Deque<Integer> deque) {
        show(kind, deque);
        for (int i = 0; i < 12; i++) {
            if (i % 3 == 0) {
                deque.addFirst(i);
            } else if (i % 3 == 1) {
                deque.addLast(i);
            } else {
                show("offer", deque.offer(i) && deque.offerFirst(i + 100) && deque.offerLast(i + 200));
            }
            if (i % 4 == 3) {
                show("polled", deque.pollFirst() + 1000 * deque.pollLast());
            }
        }
        deque.push(7);
        deque.add(7);
        show(kind, deque);
        show("size", deque.size());
        show("ends", deque.getFirst() + 10 * deque.getLast() + 100 * deque.peekFirst() + 1000 * deque.peekLast() + deque.peek() + deque.element());
        show("taken", deque.pop() + 10 * deque.removeLast() + 100 * deque.remove() + 1000 * deque.poll() + deque.removeFirst());
        show("contains", deque.contains(5) && !deque.contains(99) && deque.containsAll(Arrays.asList(5)));
        show("first", deque.removeFirstOccurrence(5) && !deque.removeFirstOccurrence(99));
        show("last", deque.removeLastOccurrence(208) && !deque.removeLastOccurrence(99));
        show("remove", deque.remove(Integer.valueOf(8)) || deque.remove(null));
        show(kind, deque);
        StringBuilder back = new StringBuilder();
        for (Iterator<Integer> each = deque.descendingIterator(); each.hasNext();) {
            int element = each.next();
            back.append(element).append(' ');
            if (element % 2 == 0) {
                each.remove();
            }
        }
        show("back", back);
        show(kind, deque);
        deque.addAll(Arrays.asList(1, 2, 3, 4, 5, 6, 7, 8, 9, 10, 11, 12, 13, 14, 15, 16, 17, 18, 19, 20));
        for (Iterator<Integer> each = deque.iterator(); each.hasNext();) {
            if (each.next() % 3 == 0) {
                each.remove();
            }
        }
        show(kind, deque);
        show("array", Arrays.toString(deque.toArray()) + Arrays.toString(deque.toArray(new Integer[30])));
        deque.retainAll(Arrays.asList(1, 2, 4));
        show(kind, deque);
        deque.clear();
        show("none", deque.poll());
        show("none", deque.peekLast());
        show("empty", deque.isEmpty());
        for (int i = 0; i < 7; i++) {
            try {
                switch (i) {
                    case 0: deque.getFirst(); break;
                    case 1: deque.getLast(); break;
                    case 2: deque.remove(); break;
                    case 3: deque.removeLast(); break;
                    case 4: deque.pop(); break;
                    case 5: deque.element(); break;
                    default: deque.iterator().next();
                }
            } catch (NoSuchElementException e) {
                show("end", e);
            }
        }
        long sum = 0;
        for (int i = 0; i < 500; i++) {
            deque.add(i * i);
            if (i % 5 > 1) {
                sum = 3 * sum + deque.poll();
            }
        }
        show("sum", sum + deque.size());
    }

    static void priorities() {
        int[] numbers = {5, 30, 1, 17, 8, 2, 9, 30, 4, 11, 6, 25, 3, 5, 19};
        PriorityQueue<Integer> queue = new PriorityQueue<Integer>();
        for (int i = 0; i < numbers.length; i++) {
            show("offer", queue.offer(numbers[i]));
            show("heap", queue);
        }
        show("ends", queue.peek() + 10 * queue.element() + 100 * queue.size());
        show("contains", queue.contains(25) && !queue.contains(26) && !queue.contains(null));
        show("remove", queue.remove(Integer.valueOf(17)) && !queue.remove(Integer.valueOf(17)) && queue.remove(Integer.valueOf(2)));
        show("heap", queue);
        for (Iterator<Integer> each = queue.iterator(); each.hasNext();) {
            if (each.next() % 3 == 0) {
                each.remove();
            }
        }
        show("heap", queue);
        show("array", Arrays.toString(queue.toArray()));
        show("copy", new PriorityQueue<Integer>(queue));
        StringBuilder taken = new StringBuilder();
        while (!queue.isEmpty()) {
            taken.append(queue.size() % 2 == 0 ? queue.poll().intValue() : queue.remove().intValue()).append(' ');
        }
        show("taken", taken);
        show("none", queue.poll());
        show("none", queue.peek());
        try {
            queue.remove();
        } catch (NoSuchElementException e) {
            show("remove", e);
        }
        try {
            queue.element();
        } catch (NoSuchElementException e) {
            show("element", e);
        }
        try {
            queue.add(null);
        } catch (NullPointerException e) {
            show("add", "NullPointerException");
        }
        try {
            new PriorityQueue<Object>().add(new Object());
        } catch (ClassCastException e) {
            show("add", "ClassCastException");
        }
        PriorityQueue<String> words = new PriorityQueue<String>(3, Collections.<String>reverseOrder());
        Collections.addAll(words, "pear", "fig", "apple", "kiwi", "date", "plum", "banana");
        show("words", words);
        show("order", words.comparator().compare("a", "b"));
        while (words.size() > 2) {
            show("word", words.poll());
        }
        words.clear();
        show("words", words);
        show("list", new PriorityQueue<Integer>(Arrays.asList(9, 3, 7, 1, 8, 2)));
        show("set", new PriorityQueue<Integer>(new TreeSet<Integer>(Arrays.asList(9, 3, 7, 1, 8, 2))));
        Queue<String> line = new LinkedList<String>();
        line.add("a");
        line.offer("b");
        show("line", line.peek() + line.poll() + line.remove() + line.poll());
    }

    static void bits() {
        BitSet set = new BitSet();
        int[] indices = {0, 1, 5, 63, 64, 65, 127, 200};
        for (int i = 0; i < indices.length; i++) {
            set.set(indices[i]);
        }
        show("bits", set);
        show("numbers", set.length() + 1000 * set.size() + 1000000 * set.cardinality());
        show("hash", set.hashCode());
        show("get", set.get(63) && !set.get(62) && !set.get(10000));
        show("next", set.nextSetBit(6) + 1000 * set.nextSetBit(201) + 1000000 * set.nextClearBit(63));
        show("clear", set.nextClearBit(0) + 1000 * set.nextClearBit(300));
        show("previous", set.previousSetBit(199) + 1000 * set.previousSetBit(64) + 1000000 * set.previousSetBit(10000));
        show("longs", Arrays.toString(set.toLongArray()) + Arrays.toString(new BitSet(500).toLongArray()));
        show("bytes", Arrays.toString(set.toByteArray()) + Arrays.toString(new BitSet(500).toByteArray()));
        BitSet ofLongs = BitSet.valueOf(new long[] {5, -1, 0, 1L << 63, 0, 0});
        show("of longs", ofLongs.toString() + ofLongs.size() + BitSet.valueOf(new long[2]).toString());
        BitSet ofBytes = BitSet.valueOf(new byte[] {5, -1, 0, 0, 0, 0, 0, 0, -128, 0});
        show("of bytes", ofBytes.toString() + ofBytes.size() + BitSet.valueOf(new byte[9]).size() + Arrays.toString(ofBytes.toByteArray()));
        show("of both", set.equals(BitSet.valueOf(set.toLongArray())) && set.equals(BitSet.valueOf(set.toByteArray())));
        int[] ends = {-1, 0, 2, 62, 63, 64, 66, 128, 199, 200, 255, 256, Integer.MAX_VALUE};
        for (int i = 0; i < ends.length; i++) {
            show("to " + ends[i], set.previousSetBit(ends[i]) + 1000L * set.previousClearBit(ends[i]));
        }
        for (int i = 0; i < 4; i++) {
            try {
                show("to " + i, i == 0 ? set.previousSetBit(-2) : i == 1 ? set.previousClearBit(Integer.MIN_VALUE) : new BitSet(0).previousSetBit(64 * i));
            } catch (IndexOutOfBoundsException e) {
                show("to " + i, e);
            }
        }
        set.flip(5);
        set.flip(6);
        set.clear(65);
        set.clear(9999);
        set.set(70, true);
        set.set(1, false);
        show("bits", set);
        set.set(10, 75);
        set.clear(20, 66);
        set.flip(60, 140);
        show("bits", set);
        show("part", set.get(60, 130));
        BitSet other = new BitSet(100);
        other.set(0, 130, true);
        show("intersects", set.intersects(other) && !set.intersects(new BitSet()));
        BitSet and = (BitSet) set.clone();
        and.and(other);
        show("and", and);
        BitSet or = (BitSet) set.clone();
        or.or(other);
        show("or", or.cardinality());
        BitSet xor = (BitSet) set.clone();
        xor.xor(other);
        show("xor", xor);
        BitSet not = (BitSet) set.clone();
        not.andNot(other);
        show("and not", not);
        show("equal", set.equals(set.clone()) && !set.equals(or) && !set.equals("x") && new BitSet().equals(new BitSet(1000)));
        set.set(3, 3);
        set.clear();
        show("empty", set.isEmpty() && set.length() == 0 && set.hashCode() == 1234);
        show("none", set);
        for (int i = 0; i < 4; i++) {
            try {
                switch (i) {
                    case 0: set.get(-1); break;
                    case 1: set.set(5, 3); break;
                    case 2: set.nextSetBit(-2); break;
                    default: new BitSet(-3);
                }
            } catch (RuntimeException e) {
                show("throws", e);
            }
        }
    }

    static void tokens() {
        String[] texts = {"", "one", "  two  words ", "a,b;c,,d", "tab\tand\nline"};
        for (int i = 0; i < texts.length; i++) {
            StringTokenizer words = new StringTokenizer(texts[i]);
            show("count", words.countTokens());
            while (words.hasMoreTokens()) {
                show("word", words.nextToken() + "|");
            }
            StringTokenizer parts = new StringTokenizer(texts[i], ",;");
            while (parts.hasMoreElements()) {
                show("part", parts.nextElement());
            }
            StringTokenizer all = new StringTokenizer(texts[i], ",; ", true);
            show("all", all.countTokens());
            while (all.hasMoreTokens()) {
                show("each", all.nextToken() + "|" + all.countTokens());
            }
            try {
                all.nextToken();
            } catch (NoSuchElementException e) {
                show("end", e);
            }
        }
        StringTokenizer changed = new StringTokenizer("a b,c d");
        show("changed", changed.nextToken() + changed.nextToken(",") + changed.nextToken());
    }

    public static void main(String[] args) {
        deque("ArrayDeque", new ArrayDeque<Integer>());
        deque("ArrayDeque of 3", new ArrayDeque<Integer>(3));
        deque("LinkedList", new LinkedList<Integer>());
        show("copy", new ArrayDeque<Integer>(Arrays.asList(4, 5, 6)).clone());
        try {
            new ArrayDeque<Integer>().add(null);
        } catch (NullPointerException e) {
            show("add", "NullPointerException");
        }
        priorities();
        bits();
        tokens();
    }
}
