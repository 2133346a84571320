package java.util;

import java.io.Serializable;

/**
 * A queue of two ends in an array that goes round and doubles. It takes no null.
 *
 * <p>What stays: the array, and each array that it grew out of.
 */
public class ArrayDeque<E> extends AbstractCollection<E> implements Deque<E>, Cloneable, Serializable {
    private static final int FIRST_CAPACITY = 16;

    private Object[] elements;
    private int head;
    private int size;
    private int changes;

    /** Makes an empty queue with room for sixteen, in constant time. */
    public ArrayDeque() {
        elements = new Object[FIRST_CAPACITY];
    }

    /** Makes an empty queue with room for {@code capacity} elements, in their time. */
    public ArrayDeque(int capacity) {
        elements = new Object[Math.max(capacity, 1)];
    }

    /** Makes a queue of the elements of a collection, in linear time. */
    public ArrayDeque(Collection<? extends E> others) {
        elements = new Object[Math.max(others.size(), 1)];
        addAll(others);
    }

    /** Returns where the element at an index is, counted from the head. */
    private int placeOf(int index) {
        int place = head + index;
        return place < elements.length ? place : place - elements.length;
    }

    private E elementAt(int index) {
        return (E) elements[placeOf(index)];
    }

    private void makeRoom() {
        changes++;
        if (size == elements.length) {
            Object[] resized = new Object[2 * size];
            for (int index = 0; index < size; index++) {
                resized[index] = elements[placeOf(index)];
            }
            elements = resized;
            head = 0;
        }
    }

    /** Adds an element at the head, in constant time but where the array grows. */
    public void addFirst(E element) {
        Objects.requireNonNull(element);
        makeRoom();
        head = head == 0 ? elements.length - 1 : head - 1;
        elements[head] = element;
        size++;
    }

    /** Adds an element at the tail, in constant time but where the array grows. */
    public void addLast(E element) {
        Objects.requireNonNull(element);
        makeRoom();
        elements[placeOf(size)] = element;
        size++;
    }

    /** Adds an element at the head, in constant time but where the array grows. */
    public boolean offerFirst(E element) {
        addFirst(element);
        return true;
    }

    /** Adds an element at the tail, in constant time but where the array grows. */
    public boolean offerLast(E element) {
        addLast(element);
        return true;
    }

    /** Adds an element at the tail, in constant time but where the array grows. */
    public boolean add(E element) {
        addLast(element);
        return true;
    }

    /** Adds an element at the tail, in constant time but where the array grows. */
    public boolean offer(E element) {
        addLast(element);
        return true;
    }

    /** Adds an element at the head, in constant time but where the array grows. */
    public void push(E element) {
        addFirst(element);
    }

    private static <E> E present(E element) {
        if (element == null) {
            throw new NoSuchElementException();
        }
        return element;
    }

    /** Removes the first element, or returns null, in constant time. */
    public E pollFirst() {
        if (size == 0) {
            return null;
        }
        changes++;
        E first = elementAt(0);
        elements[head] = null;
        head = placeOf(1);
        size--;
        return first;
    }

    /** Removes the last element, or returns null, in constant time. */
    public E pollLast() {
        if (size == 0) {
            return null;
        }
        changes++;
        E last = elementAt(size - 1);
        elements[placeOf(size - 1)] = null;
        size--;
        return last;
    }

    /** Removes the first element, in constant time. */
    public E removeFirst() {
        return present(pollFirst());
    }

    /** Removes the last element, in constant time. */
    public E removeLast() {
        return present(pollLast());
    }

    /** Removes the first element, in constant time. */
    public E remove() {
        return present(pollFirst());
    }

    /** Removes the first element, in constant time. */
    public E pop() {
        return present(pollFirst());
    }

    /** Removes the first element, or returns null, in constant time. */
    public E poll() {
        return pollFirst();
    }

    /** Returns the first element, or null, in constant time. */
    public E peekFirst() {
        return size == 0 ? null : elementAt(0);
    }

    /** Returns the last element, or null, in constant time. */
    public E peekLast() {
        return size == 0 ? null : elementAt(size - 1);
    }

    /** Returns the first element, in constant time. */
    public E getFirst() {
        return present(peekFirst());
    }

    /** Returns the last element, in constant time. */
    public E getLast() {
        return present(peekLast());
    }

    /** Returns the first element, in constant time. */
    public E element() {
        return present(peekFirst());
    }

    /** Returns the first element, or null, in constant time. */
    public E peek() {
        return peekFirst();
    }

    /** Returns the number of elements, in constant time. */
    public int size() {
        return size;
    }

    /** Reports whether there are no elements, in constant time. */
    public boolean isEmpty() {
        return size == 0;
    }

    /** Removes the first equal element, in linear time. */
    public boolean remove(Object element) {
        return removeFirstOccurrence(element);
    }

    /** Removes the first equal element, in linear time. */
    public boolean removeFirstOccurrence(Object element) {
        for (int index = 0; element != null && index < size; index++) {
            if (element.equals(elementAt(index))) {
                removeAt(index);
                return true;
            }
        }
        return false;
    }

    /** Removes the last equal element, in linear time. */
    public boolean removeLastOccurrence(Object element) {
        for (int index = size - 1; element != null && index >= 0; index--) {
            if (element.equals(elementAt(index))) {
                removeAt(index);
                return true;
            }
        }
        return false;
    }

    private void removeAt(int index) {
        changes++;
        for (int next = index + 1; next < size; next++) {
            elements[placeOf(next - 1)] = elements[placeOf(next)];
        }
        elements[placeOf(size - 1)] = null;
        size--;
    }

    /** Removes all elements, in linear time; the array keeps its length. */
    public void clear() {
        changes++;
        Arrays.fill(elements, null);
        head = 0;
        size = 0;
    }

    /** Makes a queue of the same elements, in linear time. */
    public ArrayDeque<E> clone() {
        return new ArrayDeque<E>(this);
    }

    /** Makes an iterator from the first element to the last, in constant time. */
    public Iterator<E> iterator() {
        return new Walk<E>(this, 0, 1);
    }

    /** Makes an iterator from the last element to the first, in constant time. */
    public Iterator<E> descendingIterator() {
        return new Walk<E>(this, size - 1, -1);
    }

    /** Goes through the elements by their indices. */
    static final class Walk<E> implements Iterator<E> {
        private final ArrayDeque<E> deque;
        private final int step;
        private int index;
        private int last = -1;
        private int expected;

        Walk(ArrayDeque<E> deque, int index, int step) {
            this.deque = deque;
            this.index = index;
            this.step = step;
            expected = deque.changes;
        }

        public boolean hasNext() {
            return 0 <= index && index < deque.size;
        }

        public E next() {
            if (!hasNext()) {
                throw new NoSuchElementException();
            }
            if (expected != deque.changes) {
                throw new ConcurrentModificationException();
            }
            last = index;
            index += step;
            return deque.elementAt(last);
        }

        public void remove() {
            if (last < 0) {
                throw new IllegalStateException();
            }
            deque.removeAt(last);
            index -= step > 0 ? 1 : 0;
            last = -1;
            expected = deque.changes;
        }
    }
}
