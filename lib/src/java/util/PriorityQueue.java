package java.util;

import java.io.Serializable;

/**
 * A queue whose head is the least element by an order. The elements are in an array, as a heap; an iterator takes them as they are there.
 *
 * <p>What stays: the array, and each array that it grew out of.
 */
public class PriorityQueue<E> extends AbstractQueue<E> implements Serializable {
    private static final int FIRST_CAPACITY = 11;

    private Object[] heap;
    private int size;
    private final Comparator<? super E> order;
    private int changes;

    /** Makes an empty queue in the natural order with room for eleven, in constant time. */
    public PriorityQueue() {
        this(FIRST_CAPACITY, null);
    }

    /** Makes an empty queue in the natural order with room for {@code capacity} elements, in their time. */
    public PriorityQueue(int capacity) {
        this(capacity, null);
    }

    /** Makes an empty queue in an order with room for eleven, in constant time. */
    public PriorityQueue(Comparator<? super E> order) {
        this(FIRST_CAPACITY, order);
    }

    /** Makes an empty queue in an order, or in the natural one where it is null, with room for {@code capacity} elements, in their time. */
    public PriorityQueue(int capacity, Comparator<? super E> order) {
        if (capacity < 1) {
            throw new IllegalArgumentException();
        }
        heap = new Object[capacity];
        this.order = order;
    }

    /** Makes a queue of the elements of another one, in its order and linear time. */
    public PriorityQueue(PriorityQueue<? extends E> others) {
        this(Math.max(others.size(), 1), (Comparator<? super E>) others.comparator());
        take(others);
    }

    /** Makes a queue of the elements of a set, in its order and linear time. */
    public PriorityQueue(SortedSet<? extends E> others) {
        this(Math.max(others.size(), 1), (Comparator<? super E>) others.comparator());
        take(others);
    }

    /** Makes a queue of the elements of a collection, in linear time: in its order where it has one, else in the natural one. */
    public PriorityQueue(Collection<? extends E> others) {
        this(Math.max(others.size(), 1), (Comparator<? super E>) orderOf(others));
        take(others);
    }

    private static Comparator<?> orderOf(Collection<?> others) {
        if (others instanceof SortedSet) {
            return ((SortedSet<?>) others).comparator();
        }
        return others instanceof PriorityQueue ? ((PriorityQueue<?>) others).comparator() : null;
    }

    private void take(Collection<? extends E> others) {
        for (E each : others) {
            heap[size++] = Objects.requireNonNull(each);
        }
        for (int root = (size >>> 1) - 1; root >= 0; root--) {
            sink(root, heap[root]);
        }
    }

    private boolean isBefore(Object one, Object other) {
        return Natural.compare((E) one, (E) other, order) < 0;
    }

    /** Puts an element at a place of the heap, or above it where it is before those there. */
    private void rise(int place, Object element) {
        while (place > 0) {
            int above = place - 1 >>> 1;
            if (!isBefore(element, heap[above])) {
                break;
            }
            heap[place] = heap[above];
            place = above;
        }
        heap[place] = element;
    }

    /** Puts an element at a place of the heap, or below it where those there are before it. */
    private void sink(int place, Object element) {
        int half = size >>> 1;
        while (place < half) {
            int below = 2 * place + 1;
            if (below + 1 < size && isBefore(heap[below + 1], heap[below])) {
                below++;
            }
            if (!isBefore(heap[below], element)) {
                break;
            }
            heap[place] = heap[below];
            place = below;
        }
        heap[place] = element;
    }

    /** Adds an element, in logarithmic time but where the array grows. */
    public boolean add(E element) {
        return offer(element);
    }

    /** Adds an element, in logarithmic time but where the array grows. */
    public boolean offer(E element) {
        Objects.requireNonNull(element);
        changes++;
        if (size == heap.length) {
            grow();
        }
        if (size == 0 && order == null) {
            // (what has no natural order is refused at once)
            Natural.compare(element, element);
        }
        size++;
        rise(size - 1, element);
        return true;
    }

    private void grow() {
        Object[] resized = new Object[size + Math.max(size >> 1, 1)];
        for (int index = 0; index < size; index++) {
            resized[index] = heap[index];
        }
        heap = resized;
    }

    /** Returns the head, or null, in constant time. */
    public E peek() {
        return size == 0 ? null : (E) heap[0];
    }

    /** Removes the head, or returns null, in logarithmic time. */
    public E poll() {
        if (size == 0) {
            return null;
        }
        changes++;
        E head = (E) heap[0];
        Object last = heap[--size];
        heap[size] = null;
        if (size > 0) {
            sink(0, last);
        }
        return head;
    }

    private int indexOf(Object element) {
        if (element != null) {
            for (int index = 0; index < size; index++) {
                if (element.equals(heap[index])) {
                    return index;
                }
            }
        }
        return -1;
    }

    /** Looks for an equal element, in linear time. */
    public boolean contains(Object element) {
        return indexOf(element) >= 0;
    }

    /** Removes an equal element, in linear time. */
    public boolean remove(Object element) {
        int index = indexOf(element);
        if (index >= 0) {
            removeAt(index);
        }
        return index >= 0;
    }

    /** Removes the element at a place, and returns the one that came before that place from behind it, or null. */
    private Object removeAt(int place) {
        changes++;
        Object last = heap[--size];
        heap[size] = null;
        if (place == size) {
            return null;
        }
        sink(place, last);
        if (heap[place] == last) {
            rise(place, last);
            if (heap[place] != last) {
                return last;
            }
        }
        return null;
    }

    /** Returns the number of elements, in constant time. */
    public int size() {
        return size;
    }

    /** Removes all elements, in linear time; the array keeps its length. */
    public void clear() {
        changes++;
        Arrays.fill(heap, null);
        size = 0;
    }

    /** Returns the order, or null where it is the natural one, in constant time. */
    public Comparator<? super E> comparator() {
        return order;
    }

    /** Makes an iterator, in constant time. It takes the elements as they are in the heap. */
    public Iterator<E> iterator() {
        return new Walk<E>(this);
    }

    /** Goes through the heap, and then through what came to the front when another element was removed. */
    static final class Walk<E> implements Iterator<E> {
        private final PriorityQueue<E> queue;
        private int index;
        private int last = -1;
        private ArrayList<Object> missed;
        private Object lastMissed;
        private int expected;

        Walk(PriorityQueue<E> queue) {
            this.queue = queue;
            expected = queue.changes;
        }

        public boolean hasNext() {
            return index < queue.size || missed != null && !missed.isEmpty();
        }

        public E next() {
            if (expected != queue.changes) {
                throw new ConcurrentModificationException();
            }
            if (index < queue.size) {
                last = index++;
                return (E) queue.heap[last];
            }
            if (missed == null || missed.isEmpty()) {
                throw new NoSuchElementException();
            }
            last = -1;
            lastMissed = missed.remove(0);
            return (E) lastMissed;
        }

        public void remove() {
            if (expected != queue.changes) {
                throw new ConcurrentModificationException();
            }
            if (last >= 0) {
                removeLast();
            } else if (lastMissed != null) {
                removeMissed();
            } else {
                throw new IllegalStateException();
            }
            expected = queue.changes;
        }

        private void removeLast() {
            Object moved = queue.removeAt(last);
            last = -1;
            if (moved == null) {
                index--;
                return;
            }
            if (missed == null) {
                missed = new ArrayList<Object>();
            }
            missed.add(moved);
        }

        private void removeMissed() {
            for (int place = 0; place < queue.size; place++) {
                if (queue.heap[place] == lastMissed) {
                    queue.removeAt(place);
                    break;
                }
            }
            lastMissed = null;
        }
    }
}
