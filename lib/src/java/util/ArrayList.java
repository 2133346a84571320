package java.util;

import java.io.Serializable;

/**
 * A list in an array that grows by half.
 *
 * <p>What stays: the array, which is freed with nothing, since the list that has it was made elsewhere; and each array that it
 * grew out of. {@code new ArrayList(n)} with enough room makes one array only.
 */
public class ArrayList<E> extends AbstractList<E> implements List<E>, RandomAccess, Cloneable, Serializable {
    private static final int FIRST_CAPACITY = 10;

    private Object[] elements;
    private int size;

    /** Makes an empty list with room for ten, in constant time. */
    public ArrayList() {
        elements = new Object[FIRST_CAPACITY];
    }

    /** Makes an empty list with room for {@code capacity} elements, in their time. */
    public ArrayList(int capacity) {
        if (capacity < 0) {
            throw new IllegalArgumentException(new StringBuilder().append("Illegal Capacity: ").append(capacity).toString());
        }
        elements = new Object[capacity];
    }

    /** Makes a list of the elements of a collection, in linear time. */
    public ArrayList(Collection<? extends E> others) {
        elements = new Object[others.size()];
        for (E each : others) {
            elements[size++] = each;
        }
    }

    /** Makes an array of just the size, in linear time; the old one stays. */
    public void trimToSize() {
        modCount++;
        if (size < elements.length) {
            resize(size);
        }
    }

    /** Makes room for {@code capacity} elements, in linear time where the array grows. */
    public void ensureCapacity(int capacity) {
        modCount++;
        makeRoom(capacity);
    }

    private void makeRoom(int capacity) {
        if (capacity > elements.length) {
            resize(Math.max(capacity, elements.length + (elements.length >> 1)));
        }
    }

    private void resize(int capacity) {
        Object[] resized = new Object[capacity];
        for (int index = 0; index < size; index++) {
            resized[index] = elements[index];
        }
        elements = resized;
    }

    /** Returns the number of elements, in constant time. */
    public int size() {
        return size;
    }

    /** Reports whether there are no elements, in constant time. */
    public boolean isEmpty() {
        return size == 0;
    }

    /** Looks for an equal element, in linear time. */
    public boolean contains(Object element) {
        return indexOf(element) >= 0;
    }

    /** Looks for an equal element from the first on, in linear time. */
    public int indexOf(Object element) {
        for (int index = 0; index < size; index++) {
            if (Objects.equals(element, elements[index])) {
                return index;
            }
        }
        return -1;
    }

    /** Looks for an equal element from the last on, in linear time. */
    public int lastIndexOf(Object element) {
        for (int index = size - 1; index >= 0; index--) {
            if (Objects.equals(element, elements[index])) {
                return index;
            }
        }
        return -1;
    }

    /** Makes a list of the same elements, in linear time. */
    public Object clone() {
        return new ArrayList<E>(this);
    }

    /** Returns the element at an index, in constant time. */
    public E get(int index) {
        Bounds.checkElement(index, size);
        return (E) elements[index];
    }

    /** Replaces the element at an index, in constant time. */
    public E set(int index, E element) {
        Bounds.checkElement(index, size);
        E old = (E) elements[index];
        elements[index] = element;
        return old;
    }

    /** Adds an element at the end, in constant time but where the array grows. */
    public boolean add(E element) {
        modCount++;
        makeRoom(size + 1);
        elements[size++] = element;
        return true;
    }

    /** Inserts an element, in the time of those behind it. */
    public void add(int index, E element) {
        Bounds.checkPlace(index, size);
        modCount++;
        open(index, 1);
        elements[index] = element;
    }

    /** Adds all elements of a collection at the end, in the time of these but where the array grows. */
    public boolean addAll(Collection<? extends E> others) {
        return addAll(size, others);
    }

    /** Inserts all elements of a collection, in the time of these and of those behind them. */
    public boolean addAll(int index, Collection<? extends E> others) {
        Bounds.checkPlace(index, size);
        Object[] added = others.toArray();
        modCount++;
        open(index, added.length);
        for (Object each : added) {
            elements[index++] = each;
        }
        return added.length > 0;
    }

    private void open(int index, int count) {
        makeRoom(size + count);
        for (int from = size - 1; from >= index; from--) {
            elements[from + count] = elements[from];
        }
        size += count;
    }

    /** Removes the element at an index, in the time of those behind it. */
    public E remove(int index) {
        Bounds.checkElement(index, size);
        E removed = (E) elements[index];
        removeRange(index, index + 1);
        return removed;
    }

    /** Removes the first equal element, in linear time. */
    public boolean remove(Object element) {
        int index = indexOf(element);
        if (index < 0) {
            return false;
        }
        removeRange(index, index + 1);
        return true;
    }

    /** Removes all elements, in linear time; the array keeps its length. */
    public void clear() {
        removeRange(0, size);
    }

    /** Removes a part, in the time of it and of what is behind it. */
    protected void removeRange(int start, int end) {
        modCount++;
        int removed = end - start;
        for (int index = end; index < size; index++) {
            elements[index - removed] = elements[index];
        }
        for (int index = size - removed; index < size; index++) {
            elements[index] = null;
        }
        size -= removed;
    }

    /** Removes all elements that the other collection contains: one question to it for each, and linear time. */
    public boolean removeAll(Collection<?> others) {
        return keepWhere(Objects.requireNonNull(others), false);
    }

    /** Removes all elements that the other collection doesn't contain: one question to it for each, and linear time. */
    public boolean retainAll(Collection<?> others) {
        return keepWhere(Objects.requireNonNull(others), true);
    }

    private boolean keepWhere(Collection<?> others, boolean isContained) {
        int kept = 0;
        for (int index = 0; index < size; index++) {
            if (others.contains(elements[index]) == isContained) {
                elements[kept++] = elements[index];
            }
        }
        boolean isChanged = kept < size;
        if (isChanged) {
            removeRange(kept, size);
        }
        return isChanged;
    }

    /** Returns a new array of the elements, in linear time. */
    public Object[] toArray() {
        Object[] array = new Object[size];
        for (int index = 0; index < size; index++) {
            array[index] = elements[index];
        }
        return array;
    }

    /** Sorts by merging, in {@code n log n} steps of the order; what it needs besides is freed. */
    public void sort(Comparator<? super E> order) {
        int expected = modCount;
        Arrays.sort((E[]) elements, 0, size, order);
        if (modCount != expected) {
            throw new ConcurrentModificationException();
        }
        modCount++;
    }
}
