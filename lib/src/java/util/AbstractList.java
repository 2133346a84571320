package java.util;

/** What lists have in common: a class adds {@code get} and {@code size}, and {@code set}, {@code add} and {@code remove} where it can change. */
public abstract class AbstractList<E> extends AbstractCollection<E> implements List<E> {
    /** How often elements were added or removed: iterators throw ConcurrentModificationException where it isn't what they expect. */
    protected int modCount = 0;

    /** Makes a list, in constant time. */
    protected AbstractList() {
    }

    /** Returns the element at an index, at the cost that the class has. */
    public abstract E get(int index);

    /** Adds an element at the end, in the time of {@code add} at an index. */
    public boolean add(E element) {
        add(size(), element);
        return true;
    }

    /** Throws UnsupportedOperationException: a class that can grow overrides it. */
    public void add(int index, E element) {
        throw new UnsupportedOperationException();
    }

    /** Throws UnsupportedOperationException: a class that can change overrides it. */
    public E set(int index, E element) {
        throw new UnsupportedOperationException();
    }

    /** Throws UnsupportedOperationException: a class that can shrink overrides it. */
    public E remove(int index) {
        throw new UnsupportedOperationException();
    }

    /** Looks for an equal element from the first on: linear time. */
    public int indexOf(Object element) {
        int index = 0;
        for (E each : this) {
            if (Objects.equals(element, each)) {
                return index;
            }
            index++;
        }
        return -1;
    }

    /** Looks for an equal element from the last on: linear time. */
    public int lastIndexOf(Object element) {
        ListIterator<E> each = listIterator(size());
        while (each.hasPrevious()) {
            if (Objects.equals(element, each.previous())) {
                return each.nextIndex();
            }
        }
        return -1;
    }

    /** Removes the elements one by one, from the last on. */
    public void clear() {
        removeRange(0, size());
    }

    /** Inserts elements one by one. */
    public boolean addAll(int index, Collection<? extends E> others) {
        Bounds.checkPlace(index, size());
        boolean isChanged = false;
        for (E each : others) {
            add(index++, each);
            isChanged = true;
        }
        return isChanged;
    }

    /** Makes an iterator, in constant time. */
    public Iterator<E> iterator() {
        return new ListWalk<E>(this, 0);
    }

    /** Makes an iterator, in constant time. */
    public ListIterator<E> listIterator() {
        return new ListWalk<E>(this, 0);
    }

    /** Makes an iterator, in constant time. */
    public ListIterator<E> listIterator(int index) {
        Bounds.checkPlace(index, size());
        return new ListWalk<E>(this, index);
    }

    /**
     * Makes a view, in constant time, whose elements take the time of {@code get} and its like. It throws
     * ConcurrentModificationException once the list grew or shrank by others than it.
     */
    public List<E> subList(int start, int end) {
        Bounds.checkPart(start, end, size());
        return this instanceof RandomAccess ? new SubList.OfRandom<E>(this, start, end) : new SubList<E>(this, start, end);
    }

    /** Sorts by merging, in {@code n log n} steps of the order, through an array of the elements that is dropped at the end. */
    public void sort(Comparator<? super E> order) {
        Object[] elements = toArray();
        Arrays.sort((E[]) elements, order);
        ListIterator<E> place = listIterator();
        for (Object each : elements) {
            place.next();
            place.set((E) each);
        }
    }

    /** Removes the elements from {@code start} to before {@code end} one by one, from the last on. */
    protected void removeRange(int start, int end) {
        for (int index = end - 1; index >= start; index--) {
            remove(index);
        }
    }

    /** Compares the elements one by one, as far as both lists go. */
    public boolean equals(Object other) {
        if (other == this) {
            return true;
        }
        if (!(other instanceof List)) {
            return false;
        }
        Iterator<E> mine = iterator();
        Iterator<?> others = ((List<?>) other).iterator();
        while (mine.hasNext() && others.hasNext()) {
            if (!Objects.equals(mine.next(), others.next())) {
                return false;
            }
        }
        return !mine.hasNext() && !others.hasNext();
    }

    /** Returns the hash of a list, in the time of its elements' hashes. */
    public int hashCode() {
        int hash = 1;
        for (E each : this) {
            hash = 31 * hash + Objects.hashCode(each);
        }
        return hash;
    }
}
