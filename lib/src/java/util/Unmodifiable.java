package java.util;

/** Views that can't be changed: what would change them throws UnsupportedOperationException. */
final class Unmodifiable {
    Unmodifiable() {
    }

    private static UnsupportedOperationException refused() {
        return new UnsupportedOperationException();
    }

    /** Goes through elements, and removes none. */
    static final class Walk<E> implements ListIterator<E> {
        private final Iterator<? extends E> iterator;

        Walk(Iterator<? extends E> iterator) {
            this.iterator = iterator;
        }

        private ListIterator<? extends E> both() {
            return (ListIterator<? extends E>) iterator;
        }

        public boolean hasNext() {
            return iterator.hasNext();
        }

        public E next() {
            return iterator.next();
        }

        public boolean hasPrevious() {
            return both().hasPrevious();
        }

        public E previous() {
            return both().previous();
        }

        public int nextIndex() {
            return both().nextIndex();
        }

        public int previousIndex() {
            return both().previousIndex();
        }

        public void remove() {
            throw refused();
        }

        public void set(E element) {
            throw refused();
        }

        public void add(E element) {
            throw refused();
        }
    }

    /** A collection. */
    static class OfCollection<E> implements Collection<E> {
        private final Collection<? extends E> elements;

        OfCollection(Collection<? extends E> elements) {
            this.elements = Objects.requireNonNull(elements);
        }

        public int size() {
            return elements.size();
        }

        public boolean isEmpty() {
            return elements.isEmpty();
        }

        public boolean contains(Object element) {
            return elements.contains(element);
        }

        public boolean containsAll(Collection<?> others) {
            return elements.containsAll(others);
        }

        public Iterator<E> iterator() {
            return new Walk<E>(elements.iterator());
        }

        public Object[] toArray() {
            return elements.toArray();
        }

        public <T> T[] toArray(T[] array) {
            return elements.toArray(array);
        }

        public String toString() {
            return elements.toString();
        }

        public boolean add(E element) {
            throw refused();
        }

        public boolean remove(Object element) {
            throw refused();
        }

        public boolean addAll(Collection<? extends E> others) {
            throw refused();
        }

        public boolean removeAll(Collection<?> others) {
            throw refused();
        }

        public boolean retainAll(Collection<?> others) {
            throw refused();
        }

        public void clear() {
            throw refused();
        }
    }

    /** A set. */
    static final class OfSet<E> extends OfCollection<E> implements Set<E> {
        private final Set<? extends E> set;

        OfSet(Set<? extends E> set) {
            super(set);
            this.set = set;
        }

        public boolean equals(Object other) {
            return other == this || set.equals(other);
        }

        public int hashCode() {
            return set.hashCode();
        }
    }

    /** A list. */
    static class OfList<E> extends OfCollection<E> implements List<E> {
        private final List<? extends E> list;

        OfList(List<? extends E> list) {
            super(list);
            this.list = list;
        }

        static <E> List<E> of(List<? extends E> list) {
            return list instanceof RandomAccess ? new OfRandomList<E>(list) : new OfList<E>(list);
        }

        public E get(int index) {
            return list.get(index);
        }

        public int indexOf(Object element) {
            return list.indexOf(element);
        }

        public int lastIndexOf(Object element) {
            return list.lastIndexOf(element);
        }

        public ListIterator<E> listIterator() {
            return new Walk<E>(list.listIterator());
        }

        public ListIterator<E> listIterator(int index) {
            return new Walk<E>(list.listIterator(index));
        }

        public List<E> subList(int start, int end) {
            return OfList.<E>of(list.subList(start, end));
        }

        public boolean equals(Object other) {
            return other == this || list.equals(other);
        }

        public int hashCode() {
            return list.hashCode();
        }

        public E set(int index, E element) {
            throw refused();
        }

        public void add(int index, E element) {
            throw refused();
        }

        public E remove(int index) {
            throw refused();
        }

        public boolean addAll(int index, Collection<? extends E> others) {
            throw refused();
        }

        public void sort(Comparator<? super E> order) {
            throw refused();
        }
    }

    /** A list that finds elements by their index. */
    static final class OfRandomList<E> extends OfList<E> implements RandomAccess {
        OfRandomList(List<? extends E> list) {
            super(list);
        }
    }

    /** A map. */
    static final class OfMap<K, V> extends AbstractMap<K, V> {
        private final Map<? extends K, ? extends V> map;

        OfMap(Map<? extends K, ? extends V> map) {
            this.map = Objects.requireNonNull(map);
        }

        public int size() {
            return map.size();
        }

        public boolean containsKey(Object key) {
            return map.containsKey(key);
        }

        public boolean containsValue(Object value) {
            return map.containsValue(value);
        }

        public V get(Object key) {
            return map.get(key);
        }

        public V putIfAbsent(K key, V value) {
            throw refused();
        }

        public V remove(Object key) {
            throw refused();
        }

        public void putAll(Map<? extends K, ? extends V> others) {
            throw refused();
        }

        public void clear() {
            throw refused();
        }

        public Set<K> keySet() {
            return new OfSet<K>(map.keySet());
        }

        public Collection<V> values() {
            return new OfCollection<V>(map.values());
        }

        public Set<Map.Entry<K, V>> entrySet() {
            return new Entries<K, V>(map.entrySet());
        }
    }

    /** The entries of a map, whose values can't be replaced. */
    static final class Entries<K, V> extends AbstractSet<Map.Entry<K, V>> {
        private final Set<?> entries;

        Entries(Set<?> entries) {
            this.entries = entries;
        }

        public int size() {
            return entries.size();
        }

        public boolean contains(Object entry) {
            return entries.contains(entry);
        }

        public boolean remove(Object entry) {
            throw refused();
        }

        public boolean removeAll(Collection<?> others) {
            throw refused();
        }

        public boolean retainAll(Collection<?> others) {
            throw refused();
        }

        public void clear() {
            throw refused();
        }

        public Iterator<Map.Entry<K, V>> iterator() {
            return new EntryWalk<K, V>((Iterator<Map.Entry<K, V>>) entries.iterator());
        }
    }

    /** Goes through entries, of which it makes those that can't be changed. */
    static final class EntryWalk<K, V> implements Iterator<Map.Entry<K, V>> {
        private final Iterator<Map.Entry<K, V>> entries;

        EntryWalk(Iterator<Map.Entry<K, V>> entries) {
            this.entries = entries;
        }

        public boolean hasNext() {
            return entries.hasNext();
        }

        public Map.Entry<K, V> next() {
            return new AbstractMap.SimpleImmutableEntry<K, V>(entries.next());
        }

        public void remove() {
            throw refused();
        }
    }
}
