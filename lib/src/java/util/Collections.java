package java.util;

/** Operations on collections. A view, or a list of one element, is made at each call, and stays as long as what it is of. */
public class Collections {
    Collections() {
    }

    /** Sorts a list by its own {@code sort}, in the natural order. */
    public static <T extends Comparable<? super T>> void sort(List<T> list) {
        list.sort(null);
    }

    /** Sorts a list by its own {@code sort}, in an order. */
    public static <T> void sort(List<T> list, Comparator<? super T> order) {
        list.sort(order);
    }

    /** Returns the index of an element of a list in the natural order, or {@code -(place) - 1}, in logarithmically many calls of {@code get}. */
    public static <T> int binarySearch(List<? extends Comparable<? super T>> list, T wanted) {
        return search(list, wanted, null);
    }

    /** Returns the index of an element of a list in an order, or {@code -(place) - 1}, in logarithmically many calls of {@code get}. */
    public static <T> int binarySearch(List<? extends T> list, T wanted, Comparator<? super T> order) {
        return search(list, wanted, (Comparator<Object>) order);
    }

    private static int search(List<?> list, Object wanted, Comparator<Object> order) {
        int low = 0;
        int high = list.size() - 1;
        while (low <= high) {
            int middle = low + high >>> 1;
            int compared = Natural.compare(list.get(middle), wanted, order);
            if (compared == 0) {
                return middle;
            }
            if (compared < 0) {
                low = middle + 1;
            } else {
                high = middle - 1;
            }
        }
        return -(low + 1);
    }

    /** Puts elements into a list from the first place on, by its iterator. */
    private static void putBack(List<?> list, Object[] elements) {
        ListIterator<Object> place = (ListIterator<Object>) list.listIterator();
        for (Object each : elements) {
            place.next();
            place.set(each);
        }
    }

    /** Reverses a list in linear time: by swaps where it finds elements by their index, else by two iterators. */
    public static void reverse(List<?> list) {
        if (list instanceof RandomAccess) {
            for (int low = 0, high = list.size() - 1; low < high; low++, high--) {
                swap(list, low, high);
            }
            return;
        }
        ListIterator<Object> low = (ListIterator<Object>) list.listIterator();
        ListIterator<Object> high = (ListIterator<Object>) list.listIterator(list.size());
        while (low.nextIndex() < high.previousIndex()) {
            Object first = low.next();
            low.set(high.previous());
            high.set(first);
        }
    }

    /** Mixes a list by a generator that begins anew in each program, as below. */
    public static void shuffle(List<?> list) {
        shuffle(list, new Random());
    }

    /** Mixes a list by a generator in linear time: by swaps where it finds elements by their index, else through an array. */
    public static void shuffle(List<?> list, Random generator) {
        if (list instanceof RandomAccess) {
            for (int count = list.size(); count > 1; count--) {
                swap(list, count - 1, generator.nextInt(count));
            }
            return;
        }
        Object[] elements = list.toArray();
        for (int count = elements.length; count > 1; count--) {
            int other = generator.nextInt(count);
            Object exchanged = elements[other];
            elements[other] = elements[count - 1];
            elements[count - 1] = exchanged;
        }
        putBack(list, elements);
    }

    /** Exchanges two elements, by two calls of {@code set}. */
    public static void swap(List<?> list, int one, int other) {
        List<Object> all = (List<Object>) list;
        all.set(one, all.set(other, all.get(one)));
    }

    /** Replaces all elements, by the iterator. */
    public static <T> void fill(List<? super T> list, T element) {
        ListIterator<? super T> each = list.listIterator();
        while (each.hasNext()) {
            each.next();
            each.set(element);
        }
    }

    /** Copies a list over the first elements of another, or throws IndexOutOfBoundsException where that is shorter, by the iterators. */
    public static <T> void copy(List<? super T> target, List<? extends T> source) {
        if (source.size() > target.size()) {
            throw new IndexOutOfBoundsException("Source does not fit in dest");
        }
        ListIterator<? super T> place = target.listIterator();
        for (T each : source) {
            place.next();
            place.set(each);
        }
    }

    /** Returns the first of the least elements in the natural order, in linear time. */
    public static <T extends Object & Comparable<? super T>> T min(Collection<? extends T> elements) {
        return (T) best(elements, null, -1);
    }

    /** Returns the first of the least elements in an order, in linear time. */
    public static <T> T min(Collection<? extends T> elements, Comparator<? super T> order) {
        return (T) best(elements, (Comparator<Object>) order, -1);
    }

    /** Returns the first of the greatest elements in the natural order, in linear time. */
    public static <T extends Object & Comparable<? super T>> T max(Collection<? extends T> elements) {
        return (T) best(elements, null, 1);
    }

    /** Returns the first of the greatest elements in an order, in linear time. */
    public static <T> T max(Collection<? extends T> elements, Comparator<? super T> order) {
        return (T) best(elements, (Comparator<Object>) order, 1);
    }

    private static Object best(Collection<?> elements, Comparator<Object> order, int sign) {
        Iterator<?> each = elements.iterator();
        Object best = each.next();
        while (each.hasNext()) {
            Object next = each.next();
            if (sign * Integer.signum(Natural.compare(next, best, order)) > 0) {
                best = next;
            }
        }
        return best;
    }

    /** Moves each element by a distance, round at the ends, in linear time and through an array. */
    public static void rotate(List<?> list, int distance) {
        Object[] elements = list.toArray();
        Object[] moved = new Object[elements.length];
        for (int index = 0; index < elements.length; index++) {
            moved[Math.floorMod(index + Math.floorMod(distance, elements.length), elements.length)] = elements[index];
        }
        putBack(list, moved);
    }

    /** Replaces each element that equals the old one, and reports whether there was one, by the iterator. */
    public static <T> boolean replaceAll(List<T> list, T old, T element) {
        boolean isChanged = false;
        ListIterator<T> each = list.listIterator();
        while (each.hasNext()) {
            if (Objects.equals(old, each.next())) {
                each.set(element);
                isChanged = true;
            }
        }
        return isChanged;
    }

    /** Returns where a list first occurs in another one, or -1: at most the product of their sizes in calls of {@code get}. */
    public static int indexOfSubList(List<?> list, List<?> part) {
        for (int start = 0; start <= list.size() - part.size(); start++) {
            if (occursAt(list, part, start)) {
                return start;
            }
        }
        return -1;
    }

    /** Returns where a list last occurs in another one, or -1: at most the product of their sizes in calls of {@code get}. */
    public static int lastIndexOfSubList(List<?> list, List<?> part) {
        for (int start = list.size() - part.size(); start >= 0; start--) {
            if (occursAt(list, part, start)) {
                return start;
            }
        }
        return -1;
    }

    private static boolean occursAt(List<?> list, List<?> part, int start) {
        for (int index = 0; index < part.size(); index++) {
            if (!Objects.equals(part.get(index), list.get(start + index))) {
                return false;
            }
        }
        return true;
    }

    /** Counts the elements that equal the given one, in linear time. */
    public static int frequency(Collection<?> elements, Object wanted) {
        int count = 0;
        for (Object each : elements) {
            if (Objects.equals(wanted, each)) {
                count++;
            }
        }
        return count;
    }

    /** Reports whether no element is in both: a question to the second, or to the first if that is a set, for each element of the other. */
    public static boolean disjoint(Collection<?> one, Collection<?> other) {
        boolean isFirstAsked = one instanceof Set;
        for (Object each : isFirstAsked ? other : one) {
            if ((isFirstAsked ? one : other).contains(each)) {
                return false;
            }
        }
        return true;
    }

    /** Calls {@code add} for each element, and reports whether the collection changed. */
    public static <T> boolean addAll(Collection<? super T> collection, T... elements) {
        boolean isChanged = false;
        for (T each : elements) {
            if (collection.add(each)) {
                isChanged = true;
            }
        }
        return isChanged;
    }

    /** Makes the opposite of the natural order, in constant time. */
    public static <T> Comparator<T> reverseOrder() {
        return new Opposite<T>(null);
    }

    /** Makes the opposite of an order, in constant time. */
    public static <T> Comparator<T> reverseOrder(Comparator<T> order) {
        return new Opposite<T>(order);
    }

    /** The opposite of an order, or of the natural one where that is null. */
    static final class Opposite<T> implements Comparator<T> {
        private final Comparator<T> order;

        Opposite(Comparator<T> order) {
            this.order = order;
        }

        public int compare(T one, T other) {
            return Natural.compare(other, one, order);
        }
    }

    /** Makes a list in constant time that has an element {@code count} times. */
    public static <T> List<T> nCopies(int count, T element) {
        if (count < 0) {
            throw new IllegalArgumentException(new StringBuilder().append("List length = ").append(count).toString());
        }
        return new Copies<T>(count, element);
    }

    /** One element, at each index. */
    static class Copies<E> extends AbstractList<E> implements RandomAccess {
        private final int size;
        private final E element;

        Copies(int size, E element) {
            this.size = size;
            this.element = element;
        }

        public int size() {
            return size;
        }

        public E get(int index) {
            Bounds.checkLinked(index, size);
            return element;
        }
    }

    /** No elements. */
    static final class None<E> extends Copies<E> {
        None() {
            super(0, null);
        }

        public E get(int index) {
            throw new IndexOutOfBoundsException(new StringBuilder().append("Index: ").append(index).toString());
        }
    }

    /** One element: sorting finds nothing to do, and an iterator removes nothing, whether it has gone on or not. */
    static final class Single<E> extends Copies<E> {
        Single(E element) {
            super(1, element);
        }

        public Iterator<E> iterator() {
            return new Unmodifiable.Walk<E>(super.iterator());
        }

        public void sort(Comparator<? super E> order) {
        }
    }

    /** Makes a list of no elements that can't change, in constant time. */
    public static <T> List<T> emptyList() {
        return new None<T>();
    }

    /** Makes a set of no elements that can't change, in constant time. */
    public static <T> Set<T> emptySet() {
        return new ListedSet<T>(new None<T>());
    }

    /** Makes a map of no keys that can't change, in constant time. */
    public static <K, V> Map<K, V> emptyMap() {
        return new SmallMap<K, V>(0, null, null);
    }

    /** Makes a list of one element that can't change, in constant time. */
    public static <T> List<T> singletonList(T element) {
        return new Single<T>(element);
    }

    /** Makes a set of one element that can't change, in constant time. */
    public static <T> Set<T> singleton(T element) {
        return new ListedSet<T>(new Single<T>(element));
    }

    /** Makes a map of one key that can't change, in constant time. */
    public static <K, V> Map<K, V> singletonMap(K key, V value) {
        return new SmallMap<K, V>(1, key, value);
    }

    /** The elements of a list, which are unequal. */
    static final class ListedSet<E> extends AbstractSet<E> {
        private final List<E> list;

        ListedSet(List<E> list) {
            this.list = list;
        }

        public int size() {
            return list.size();
        }

        public Iterator<E> iterator() {
            return list.iterator();
        }
    }

    /** One key with its value, or none. */
    static final class SmallMap<K, V> extends AbstractMap<K, V> {
        private final int size;
        private final K key;
        private final V value;

        SmallMap(int size, K key, V value) {
            this.size = size;
            this.key = key;
            this.value = value;
        }

        private <T> Set<T> few(T element) {
            return size == 0 ? Collections.<T>emptySet() : singleton(element);
        }

        public V putIfAbsent(K key, V value) {
            throw new UnsupportedOperationException();
        }

        public Set<Map.Entry<K, V>> entrySet() {
            return this.<Map.Entry<K, V>>few(new AbstractMap.SimpleImmutableEntry<K, V>(key, value));
        }

        public Set<K> keySet() {
            return few(key);
        }

        public Collection<V> values() {
            return few(value);
        }
    }

    /** Makes a view that can't be changed, in constant time. */
    public static <T> Collection<T> unmodifiableCollection(Collection<? extends T> elements) {
        return new Unmodifiable.OfCollection<T>(elements);
    }

    /** Makes a view that can't be changed, in constant time. */
    public static <T> List<T> unmodifiableList(List<? extends T> list) {
        return Unmodifiable.OfList.<T>of(list);
    }

    /** Makes a view that can't be changed, in constant time. */
    public static <T> Set<T> unmodifiableSet(Set<? extends T> set) {
        return new Unmodifiable.OfSet<T>(set);
    }

    /** Makes a view that can't be changed, in constant time. */
    public static <K, V> Map<K, V> unmodifiableMap(Map<? extends K, ? extends V> map) {
        return new Unmodifiable.OfMap<K, V>(map);
    }

    /** Makes an enumeration of the elements, in constant time. */
    public static <T> Enumeration<T> enumeration(Collection<T> elements) {
        return new Elements<T>(elements.iterator());
    }

    /** Goes through elements by their iterator. */
    static final class Elements<E> implements Enumeration<E> {
        private final Iterator<E> iterator;

        Elements(Iterator<E> iterator) {
            this.iterator = iterator;
        }

        public boolean hasMoreElements() {
            return iterator.hasNext();
        }

        public E nextElement() {
            return iterator.next();
        }
    }

    /** Makes a list of what an enumeration has left, in linear time. */
    public static <T> ArrayList<T> list(Enumeration<T> elements) {
        ArrayList<T> list = new ArrayList<T>();
        while (elements.hasMoreElements()) {
            list.add(elements.nextElement());
        }
        return list;
    }
}
