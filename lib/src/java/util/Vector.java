package java.util;

import java.io.Serializable;

/**
 * A list in an array that doubles, or grows by a given number. There are no threads, so nothing is locked.
 *
 * <p>What stays is what stays of an ArrayList.
 */
public class Vector<E> extends AbstractList<E> implements List<E>, RandomAccess, Cloneable, Serializable {
    protected Object[] elementData;
    protected int elementCount;
    protected int capacityIncrement;

    /** Makes an empty list with room for ten, in constant time. */
    public Vector() {
        this(10);
    }

    /** Makes an empty list with room for {@code capacity} elements, in their time. */
    public Vector(int capacity) {
        this(capacity, 0);
    }

    /** Makes an empty list with room for {@code capacity} elements that grows by {@code increment}, in their time. */
    public Vector(int capacity, int increment) {
        if (capacity < 0) {
            throw new IllegalArgumentException(new StringBuilder().append("Illegal Capacity: ").append(capacity).toString());
        }
        elementData = new Object[capacity];
        capacityIncrement = increment;
    }

    /** Makes a list of the elements of a collection, in linear time. */
    public Vector(Collection<? extends E> others) {
        elementData = new Object[others.size()];
        for (E each : others) {
            elementData[elementCount++] = each;
        }
    }

    private static ArrayIndexOutOfBoundsException outside(int index, String relation, int size) {
        return new ArrayIndexOutOfBoundsException(new StringBuilder().append(index).append(relation).append(size).toString());
    }

    private static ArrayIndexOutOfBoundsException outside(int index) {
        return new ArrayIndexOutOfBoundsException(new StringBuilder().append("Array index out of range: ").append(index).toString());
    }

    private void checkElement(int index) {
        if (index < 0) {
            throw outside(index);
        }
        if (index >= elementCount) {
            throw outside(index, " >= ", elementCount);
        }
    }

    private void makeRoom(int capacity) {
        int length = elementData.length;
        if (capacity > length) {
            resize(Math.max(capacity, length + (capacityIncrement > 0 ? capacityIncrement : length)));
        }
    }

    private void resize(int capacity) {
        Object[] resized = new Object[capacity];
        for (int index = 0; index < elementCount; index++) {
            resized[index] = elementData[index];
        }
        elementData = resized;
    }

    /** Copies the elements into an array, in linear time. */
    public void copyInto(Object[] array) {
        for (int index = 0; index < elementCount; index++) {
            array[index] = elementData[index];
        }
    }

    /** Makes an array of just the size, in linear time; the old one stays. */
    public void trimToSize() {
        modCount++;
        if (elementCount < elementData.length) {
            resize(elementCount);
        }
    }

    /** Makes room for {@code capacity} elements, in linear time where the array grows. */
    public void ensureCapacity(int capacity) {
        if (capacity > 0) {
            modCount++;
            makeRoom(capacity);
        }
    }

    /** Cuts the list, or fills it with null, in the time of the difference but where the array grows. */
    public void setSize(int size) {
        modCount++;
        makeRoom(size);
        for (int index = size; index < elementCount; index++) {
            elementData[index] = null;
        }
        elementCount = size;
    }

    /** Returns the length of the array, in constant time. */
    public int capacity() {
        return elementData.length;
    }

    /** Returns the number of elements, in constant time. */
    public int size() {
        return elementCount;
    }

    /** Reports whether there are no elements, in constant time. */
    public boolean isEmpty() {
        return elementCount == 0;
    }

    /** Makes an enumeration, in constant time. */
    public Enumeration<E> elements() {
        return new Elements<E>(this);
    }

    /** Goes through the elements by their indices. */
    static final class Elements<E> implements Enumeration<E> {
        private final Vector<E> vector;
        private int index;

        Elements(Vector<E> vector) {
            this.vector = vector;
        }

        public boolean hasMoreElements() {
            return index < vector.elementCount;
        }

        public E nextElement() {
            if (index >= vector.elementCount) {
                throw new NoSuchElementException("Vector Enumeration");
            }
            return (E) vector.elementData[index++];
        }
    }

    /** Looks for an equal element, in linear time. */
    public boolean contains(Object element) {
        return indexOf(element, 0) >= 0;
    }

    /** Looks for an equal element from the first on, in linear time. */
    public int indexOf(Object element) {
        return indexOf(element, 0);
    }

    /** Looks for an equal element from an index on, in linear time. */
    public int indexOf(Object element, int start) {
        for (int index = start; index < elementCount; index++) {
            if (Objects.equals(element, elementData[index])) {
                return index;
            }
        }
        return -1;
    }

    /** Looks for an equal element from the last on, in linear time. */
    public int lastIndexOf(Object element) {
        return lastIndexOf(element, elementCount - 1);
    }

    /** Looks for an equal element from an index back, in linear time. */
    public int lastIndexOf(Object element, int start) {
        if (start >= elementCount) {
            throw new IndexOutOfBoundsException(new StringBuilder().append(start).append(" >= ").append(elementCount).toString());
        }
        for (int index = start; index >= 0; index--) {
            if (Objects.equals(element, elementData[index])) {
                return index;
            }
        }
        return -1;
    }

    /** Returns the element at an index, in constant time. */
    public E elementAt(int index) {
        checkElement(index);
        return (E) elementData[index];
    }

    /** Returns the first element, in constant time. */
    public E firstElement() {
        if (elementCount == 0) {
            throw new NoSuchElementException();
        }
        return (E) elementData[0];
    }

    /** Returns the last element, in constant time. */
    public E lastElement() {
        if (elementCount == 0) {
            throw new NoSuchElementException();
        }
        return (E) elementData[elementCount - 1];
    }

    /** Returns the element at an index, in constant time. */
    public E get(int index) {
        if (index < 0 || index >= elementCount) {
            throw outside(index);
        }
        return (E) elementData[index];
    }

    /** Replaces the element at an index, in constant time. */
    public E set(int index, E element) {
        E old = get(index);
        elementData[index] = element;
        return old;
    }

    /** Replaces the element at an index, in constant time. */
    public void setElementAt(E element, int index) {
        checkElement(index);
        elementData[index] = element;
    }

    /** Removes the element at an index, in the time of those behind it. */
    public void removeElementAt(int index) {
        checkElement(index);
        removeRange(index, index + 1);
    }

    /** Inserts an element, in the time of those behind it. */
    public void insertElementAt(E element, int index) {
        if (index < 0) {
            throw outside(index);
        }
        if (index > elementCount) {
            throw outside(index, " > ", elementCount);
        }
        modCount++;
        open(index, 1);
        elementData[index] = element;
    }

    /** Adds an element at the end, in constant time but where the array grows. */
    public void addElement(E element) {
        add(element);
    }

    /** Removes the first equal element, in linear time. */
    public boolean removeElement(Object element) {
        int index = indexOf(element, 0);
        if (index < 0) {
            return false;
        }
        removeRange(index, index + 1);
        return true;
    }

    /** Removes all elements, in linear time; the array keeps its length. */
    public void removeAllElements() {
        removeRange(0, elementCount);
    }

    /** Makes a list of the same elements, in linear time. */
    public Object clone() {
        return new Vector<E>(this);
    }

    /** Returns a new array of the elements, in linear time. */
    public Object[] toArray() {
        Object[] array = new Object[elementCount];
        copyInto(array);
        return array;
    }

    /** Adds an element at the end, in constant time but where the array grows. */
    public boolean add(E element) {
        modCount++;
        makeRoom(elementCount + 1);
        elementData[elementCount++] = element;
        return true;
    }

    /** Inserts an element, in the time of those behind it. */
    public void add(int index, E element) {
        insertElementAt(element, index);
    }

    /** Adds all elements of a collection at the end, in the time of these but where the array grows. */
    public boolean addAll(Collection<? extends E> others) {
        return addAll(elementCount, others);
    }

    /** Inserts all elements of a collection, in the time of these and of those behind them. */
    public boolean addAll(int index, Collection<? extends E> others) {
        if (index < 0 || index > elementCount) {
            throw outside(index);
        }
        Object[] added = others.toArray();
        modCount++;
        open(index, added.length);
        for (Object each : added) {
            elementData[index++] = each;
        }
        return added.length > 0;
    }

    private void open(int index, int count) {
        makeRoom(elementCount + count);
        for (int from = elementCount - 1; from >= index; from--) {
            elementData[from + count] = elementData[from];
        }
        elementCount += count;
    }

    /** Removes the element at an index, in the time of those behind it. */
    public E remove(int index) {
        E removed = get(index);
        removeRange(index, index + 1);
        return removed;
    }

    /** Removes the first equal element, in linear time. */
    public boolean remove(Object element) {
        return removeElement(element);
    }

    /** Removes all elements, in linear time; the array keeps its length. */
    public void clear() {
        removeRange(0, elementCount);
    }

    /** Removes a part, in the time of it and of what is behind it. */
    protected void removeRange(int start, int end) {
        modCount++;
        int removed = end - start;
        for (int index = end; index < elementCount; index++) {
            elementData[index - removed] = elementData[index];
        }
        for (int index = elementCount - removed; index < elementCount; index++) {
            elementData[index] = null;
        }
        elementCount -= removed;
    }

    /** Makes an iterator, in constant time. */
    public ListIterator<E> listIterator(int index) {
        if (index < 0 || index > elementCount) {
            throw new IndexOutOfBoundsException(new StringBuilder().append("Index: ").append(index).toString());
        }
        return new ListWalk<E>(this, index);
    }

    /** Sorts by merging, in {@code n log n} steps of the order; what it needs besides is freed. */
    public void sort(Comparator<? super E> order) {
        Arrays.sort((E[]) elementData, 0, elementCount, order);
        modCount++;
    }
}
