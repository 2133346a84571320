import java.util.AbstractCollection;
import java.util.AbstractList;
import java.util.AbstractMap;
import java.util.AbstractQueue;
import java.util.AbstractSequentialList;
import java.util.AbstractSet;
import java.util.ArrayList;
import java.util.Arrays;
import java.util.Collection;
import java.util.HashMap;
import java.util.HashSet;
import java.util.Iterator;
import java.util.LinkedList;
import java.util.List;
import java.util.ListIterator;
import java.util.Map;
import java.util.NoSuchElementException;
import java.util.Queue;
import java.util.Set;

/** Collections of one's own, by the abstract classes: what these have. */
public class Main {
    static void show(String what, Object value) {
        System.out.println(what + " = " + (value == null ? "null" : value.toString()));
    }

    static void show(String what, long value) {
        System.out.println(what + " = " + value);
    }

    static void show(String what, boolean value) {
        System.out.println(what + " = " + value);
    }

    /** The squares of 0 to before a number. */
    static class Squares extends AbstractList<Integer> {
        private final int count;

        Squares(int count) {
            this.count = count;
        }

        public int size() {
            return count;
        }

        public Integer get(int index) {
            if (index < 0 || index >= count) {
                throw new IndexOutOfBoundsException("no square " + index);
            }
            return index * index;
        }
    }

    /** A list in an array of fixed length. */
    static class Shelf extends AbstractList<String> {
        private final String[] places = new String[20];
        private int count;

        public int size() {
            return count;
        }

        public String get(int index) {
            if (index >= count) {
                throw new IndexOutOfBoundsException("place " + index);
            }
            return places[index];
        }

        public String set(int index, String text) {
            String old = places[index];
            places[index] = text;
            return old;
        }

        public void add(int index, String text) {
            for (int i = count; i > index; i--) {
                places[i] = places[i - 1];
            }
            places[index] = text;
            count++;
            modCount++;
        }

        public String remove(int index) {
            String old = places[index];
            count--;
            for (int i = index; i < count; i++) {
                places[i] = places[i + 1];
            }
            modCount++;
            return old;
        }
    }

    /** A list that is gone through. */
    static class Chain extends AbstractSequentialList<String> {
        private final LinkedList<String> kept = new LinkedList<String>();

        public int size() {
            return kept.size();
        }

        public ListIterator<String> listIterator(int index) {
            return kept.listIterator(index);
        }
    }

    /** A bag of texts. */
    static class Bag extends AbstractCollection<String> {
        private final List<String> kept = new ArrayList<String>();

        public int size() {
            return kept.size();
        }

        public Iterator<String> iterator() {
            return kept.iterator();
        }

        public boolean add(String text) {
            return kept.add(text);
        }
    }

    /** A set in the order of adding. */
    static class Few extends AbstractSet<String> {
        private final List<String> kept = new ArrayList<String>();

        public int size() {
            return kept.size();
        }

        public Iterator<String> iterator() {
            return kept.iterator();
        }

        public boolean add(String text) {
            return !kept.contains(text) && kept.add(text);
        }
    }

    /** A queue of at most three. */
    static class Narrow extends AbstractQueue<String> {
        private final LinkedList<String> kept = new LinkedList<String>();

        public boolean offer(String text) {
            return kept.size() < 3 && kept.add(text);
        }

        public String poll() {
            return kept.poll();
        }

        public String peek() {
            return kept.peek();
        }

        public int size() {
            return kept.size();
        }

        public Iterator<String> iterator() {
            return kept.iterator();
        }
    }

    /** A map over a set of entries. */
    static class Pairs extends AbstractMap<String, Integer> {
        private final Set<Map.Entry<String, Integer>> entries = new HashSet<Map.Entry<String, Integer>>();

        public Set<Map.Entry<String, Integer>> entrySet() {
            return entries;
        }

        public Integer put(String key, Integer value) {
            Integer old = remove(key);
            entries.add(new AbstractMap.SimpleEntry<String, Integer>(key, value));
            return old;
        }
    }

    static void lists() {
        List<Integer> squares = new Squares(6);
        show("squares", squares);
        show("equal", squares.equals(Arrays.asList(0, 1, 4, 9, 16, 25)) && squares.hashCode() == Arrays.asList(0, 1, 4, 9, 16, 25).hashCode());
        show("found", squares.indexOf(9) + 10 * squares.lastIndexOf(25) + 100 * squares.indexOf(7) + (squares.contains(16) ? 1000 : 0));
        show("part", squares.subList(2, 4));
        show("array", Arrays.toString(squares.toArray()));
        for (int i = 0; i < 6; i++) {
            try {
                switch (i) {
                    case 0: squares.add(1); break;
                    case 1: squares.set(0, 1); break;
                    case 2: squares.remove(0); break;
                    case 3: squares.clear(); break;
                    case 4: squares.get(6); break;
                    default: squares.remove(Integer.valueOf(4));
                }
            } catch (RuntimeException e) {
                show("throws", e);
            }
        }
        changed("shelf", new Shelf());
        changed("chain", new Chain());
    }

    static void changed(String kind, List<String> list) {
        show("add", list.add("a") && list.addAll(Arrays.asList("b", "c", "d")) && list.addAll(1, Arrays.asList("x", "y")));
        list.add(2, "m");
        show(kind, list);
        show("set", list.set(0, "A"));
        show("remove", list.remove(3));
        show("remove", list.remove("c") && !list.remove("q"));
        show("get", list.get(2));
        show(kind, list);
        ListIterator<String> each = list.listIterator(list.size());
        while (each.hasPrevious()) {
            String text = each.previous();
            if (text.equals("m")) {
                each.set("M");
                each.add("after");
            } else if (text.equals("b")) {
                each.remove();
            }
        }
        show(kind, list);
        show("retain", list.retainAll(Arrays.asList("A", "M", "d")) && list.removeAll(Arrays.asList("d")));
        show(kind, list);
        list.addAll(Arrays.asList("z", "k", "p"));
        list.sort(null);
        show(kind, list);
        list.subList(1, 3).clear();
        show(kind, list);
        show("equal", list.equals(new ArrayList<String>(list)) && list.hashCode() == new ArrayList<String>(list).hashCode());
        list.clear();
        show("cleared", list.isEmpty());
    }

    static void others() {
        Collection<String> bag = new Bag();
        show("add", bag.add("x") && bag.addAll(Arrays.asList("y", "z", "x")));
        show("bag", bag);
        show("contains", bag.contains("y") && !bag.contains("q") && bag.containsAll(Arrays.asList("x", "z")));
        show("remove", bag.remove("x") && !bag.remove("q"));
        show("bag", bag);
        show("remove", bag.removeAll(Arrays.asList("y")) && bag.retainAll(Arrays.asList("x")));
        show("array", Arrays.toString(bag.toArray()) + Arrays.toString(bag.toArray(new String[2])));
        bag.clear();
        show("bag", bag);
        Set<String> few = new Few();
        show("add", few.add("a") && !few.add("a") && few.addAll(Arrays.asList("b", "a", "c")));
        show("few", few);
        show("equal", few.equals(new HashSet<String>(Arrays.asList("c", "b", "a"))) && few.hashCode() == new HashSet<String>(few).hashCode());
        show("remove", few.removeAll(Arrays.asList("a", "q")) && few.removeAll(Arrays.asList("b", "1", "2", "3", "4")));
        show("few", few);
        Queue<String> narrow = new Narrow();
        show("add", narrow.add("a") && narrow.offer("b") && narrow.add("c") && !narrow.offer("d"));
        try {
            narrow.add("d");
        } catch (IllegalStateException e) {
            show("add", e);
        }
        try {
            narrow.addAll(narrow);
        } catch (IllegalArgumentException e) {
            show("addAll", e);
        }
        show("queue", narrow.element() + narrow.remove() + narrow.peek());
        narrow.clear();
        try {
            narrow.remove();
        } catch (NoSuchElementException e) {
            show("remove", e);
        }
        try {
            narrow.element();
        } catch (NoSuchElementException e) {
            show("element", e);
        }
    }

    static void maps() {
        Map<String, Integer> pairs = new Pairs();
        show("put", pairs.put("one", 1));
        show("put", pairs.put("two", 2));
        show("put", pairs.put("one", 11));
        pairs.putAll(new HashMap<String, Integer>(pairs));
        show("pairs", pairs);
        show("get", pairs.get("two") + pairs.getOrDefault("three", 3) + pairs.getOrDefault("one", 3));
        show("absent", pairs.putIfAbsent("one", 5) + (pairs.putIfAbsent("four", 4) == null ? 100 : 0));
        show("has", pairs.containsKey("four") && !pairs.containsKey("five") && pairs.containsValue(4) && !pairs.containsValue(5));
        show("equal", pairs.equals(new HashMap<String, Integer>(pairs)) && pairs.hashCode() == new HashMap<String, Integer>(pairs).hashCode());
        show("keys", pairs.keySet().contains("one") && pairs.keySet().size() == 3 && pairs.values().contains(2));
        show("remove", pairs.remove("one"));
        show("remove", pairs.keySet().remove("two") && pairs.values().remove(4));
        show("pairs", pairs);
        pairs.put("x", 1);
        pairs.clear();
        show("empty", pairs.isEmpty());
        Map<String, Integer> fixed = new AbstractMap<String, Integer>() {
            public Set<Map.Entry<String, Integer>> entrySet() {
                return new HashSet<Map.Entry<String, Integer>>();
            }
        };
        try {
            fixed.put("x", 1);
        } catch (UnsupportedOperationException e) {
            show("put", e);
        }
    }

    public static void main(String[] args) {
        lists();
        others();
        maps();
    }
}
