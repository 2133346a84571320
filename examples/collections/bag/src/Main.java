import java.util.AbstractCollection;
import java.util.ArrayList;
import java.util.Collection;
import java.util.Iterator;
import java.util.List;
import java.util.Map;
import java.util.TreeMap;

/** A bag, in which an element may be several times: a collection of one's own on top of a map. */
public class Main {
    static class Bag<E> extends AbstractCollection<E> {
        private final Map<E, Integer> counts = new TreeMap<E, Integer>();
        private int size;

        @Override
        public boolean add(E element) {
            counts.put(element, count(element) + 1);
            size++;
            return true;
        }

        int count(Object element) {
            Integer count = counts.get(element);
            return count == null ? 0 : count;
        }

        @Override
        public int size() {
            return size;
        }

        @Override
        public Iterator<E> iterator() {
            final Iterator<Map.Entry<E, Integer>> entries = counts.entrySet().iterator();
            return new Iterator<E>() {
                private Map.Entry<E, Integer> entry;
                private int left;

                public boolean hasNext() {
                    return left > 0 || entries.hasNext();
                }

                public E next() {
                    if (left == 0) {
                        entry = entries.next();
                        left = entry.getValue();
                    }
                    left--;
                    return entry.getKey();
                }

                public void remove() {
                    size--;
                    if (entry.getValue() > 1) {
                        entry.setValue(entry.getValue() - 1);
                    } else {
                        entries.remove();
                    }
                }
            };
        }
    }

    public static void main(String[] args) {
        Bag<Integer> bag = new Bag<Integer>();
        for (int i = 1; i <= 12; i++) {
            bag.add(i * i % 10);
        }
        System.out.println(bag.toString() + " " + bag.size());
        System.out.println("six: " + bag.count(6) + ", seven: " + bag.count(7) + ", has 9: " + bag.contains(9));
        System.out.println("removed: " + bag.remove(6) + " " + bag.remove(7));
        bag.removeAll(java.util.Arrays.asList(1, 5));
        System.out.println(bag.toString() + " " + bag.size());
        List<Integer> list = new ArrayList<Integer>(bag);
        Collection<Integer> other = new Bag<Integer>();
        other.addAll(list);
        other.addAll(bag);
        other.retainAll(java.util.Arrays.asList(4, 9));
        System.out.println(other.toString() + " " + bag.containsAll(other));
        bag.clear();
        System.out.println(bag.toString() + " " + bag.isEmpty() + " " + list.size());
    }
}
