package java.util;

import java.io.Serializable;

/**
 * A list of entries, each linked with the next and the previous one. Entries of removed elements serve again in the same list, so a
 * queue takes no more than the most that wait at once.
 *
 * <p>What stays: the entries of each list, as many as it had elements at once.
 */
public class LinkedList<E> extends AbstractSequentialList<E> implements List<E>, Deque<E>, Cloneable, Serializable {
    private Link<E> first;
    private Link<E> last;
    private int size;
    /** The entries that are to serve again, the next one behind each. */
    private Link<E> spare;

    /** An element between its neighbours. */
    static final class Link<E> {
        E element;
        Link<E> before;
        Link<E> behind;

        Link() {
        }
    }

    /** Makes an empty list, in constant time. */
    public LinkedList() {
    }

    /** Makes a list of the elements of a collection, in linear time. */
    public LinkedList(Collection<? extends E> others) {
        addAll(others);
    }

    /** Returns the link at an index, from the nearer end; behind the last one there is none. */
    private Link<E> linkAt(int index) {
        Link<E> link;
        if (index < size >> 1) {
            link = first;
            for (int at = 0; at < index; at++) {
                link = link.behind;
            }
        } else {
            link = null;
            for (int at = size; at > index; at--) {
                link = link == null ? last : link.before;
            }
        }
        return link;
    }

    private Link<E> takeLink() {
        Link<E> taken = spare;
        if (taken == null) {
            return new Link<E>();
        }
        spare = taken.behind;
        return taken;
    }

    /** Inserts an element before a link, or at the end where that is null. */
    private void insert(E element, Link<E> behind) {
        Link<E> made = takeLink();
        Link<E> before = behind == null ? last : behind.before;
        made.element = element;
        made.before = before;
        made.behind = behind;
        if (before == null) {
            first = made;
        } else {
            before.behind = made;
        }
        if (behind == null) {
            last = made;
        } else {
            behind.before = made;
        }
        size++;
        modCount++;
    }

    private E unlink(Link<E> link) {
        if (link.before == null) {
            first = link.behind;
        } else {
            link.before.behind = link.behind;
        }
        if (link.behind == null) {
            last = link.before;
        } else {
            link.behind.before = link.before;
        }
        size--;
        modCount++;
        E removed = link.element;
        link.element = null;
        link.behind = spare;
        spare = link;
        return removed;
    }

    private static <E> Link<E> present(Link<E> link) {
        if (link == null) {
            throw new NoSuchElementException();
        }
        return link;
    }

    /** Returns the number of elements, in constant time. */
    public int size() {
        return size;
    }

    /** Returns the first element, in constant time. */
    public E getFirst() {
        return present(first).element;
    }

    /** Returns the last element, in constant time. */
    public E getLast() {
        return present(last).element;
    }

    /** Removes the first element, in constant time. */
    public E removeFirst() {
        return unlink(present(first));
    }

    /** Removes the last element, in constant time. */
    public E removeLast() {
        return unlink(present(last));
    }

    /** Adds an element at the head, in constant time. */
    public void addFirst(E element) {
        insert(element, first);
    }

    /** Adds an element at the tail, in constant time. */
    public void addLast(E element) {
        insert(element, null);
    }

    /** Adds an element at the head, in constant time. */
    public boolean offerFirst(E element) {
        insert(element, first);
        return true;
    }

    /** Adds an element at the tail, in constant time. */
    public boolean offerLast(E element) {
        insert(element, null);
        return true;
    }

    /** Adds an element at the tail, in constant time. */
    public boolean add(E element) {
        insert(element, null);
        return true;
    }

    /** Adds an element at the tail, in constant time. */
    public boolean offer(E element) {
        insert(element, null);
        return true;
    }

    /** Adds an element at the head, in constant time. */
    public void push(E element) {
        insert(element, first);
    }

    /** Removes the first element, in constant time. */
    public E remove() {
        return removeFirst();
    }

    /** Removes the first element, in constant time. */
    public E pop() {
        return removeFirst();
    }

    /** Removes the first element, or returns null, in constant time. */
    public E poll() {
        return pollFirst();
    }

    /** Removes the first element, or returns null, in constant time. */
    public E pollFirst() {
        return first == null ? null : unlink(first);
    }

    /** Removes the last element, or returns null, in constant time. */
    public E pollLast() {
        return last == null ? null : unlink(last);
    }

    /** Returns the first element, in constant time. */
    public E element() {
        return getFirst();
    }

    /** Returns the first element, or null, in constant time. */
    public E peek() {
        return peekFirst();
    }

    /** Returns the first element, or null, in constant time. */
    public E peekFirst() {
        return first == null ? null : first.element;
    }

    /** Returns the last element, or null, in constant time. */
    public E peekLast() {
        return last == null ? null : last.element;
    }

    /** Looks for an equal element, in linear time. */
    public boolean contains(Object element) {
        return indexOf(element) >= 0;
    }

    /** Removes the first equal element, in linear time. */
    public boolean remove(Object element) {
        return removeFirstOccurrence(element);
    }

    /** Removes the first equal element, in linear time. */
    public boolean removeFirstOccurrence(Object element) {
        for (Link<E> link = first; link != null; link = link.behind) {
            if (Objects.equals(element, link.element)) {
                unlink(link);
                return true;
            }
        }
        return false;
    }

    /** Removes the last equal element, in linear time. */
    public boolean removeLastOccurrence(Object element) {
        for (Link<E> link = last; link != null; link = link.before) {
            if (Objects.equals(element, link.element)) {
                unlink(link);
                return true;
            }
        }
        return false;
    }

    /** Returns the element at an index, in the time from the nearer end. */
    public E get(int index) {
        Bounds.checkLinked(index, size);
        return linkAt(index).element;
    }

    /** Replaces the element at an index, in the time from the nearer end. */
    public E set(int index, E element) {
        Bounds.checkLinked(index, size);
        Link<E> link = linkAt(index);
        E old = link.element;
        link.element = element;
        return old;
    }

    /** Inserts an element, in the time from the nearer end. */
    public void add(int index, E element) {
        Bounds.checkPlace(index, size);
        insert(element, linkAt(index));
    }

    /** Removes the element at an index, in the time from the nearer end. */
    public E remove(int index) {
        Bounds.checkLinked(index, size);
        return unlink(linkAt(index));
    }

    /** Adds all elements of a collection at the end, in the time of these. */
    public boolean addAll(Collection<? extends E> others) {
        return addAll(size, others);
    }

    /** Inserts all elements of a collection, in the time of these and from the nearer end. */
    public boolean addAll(int index, Collection<? extends E> others) {
        Bounds.checkPlace(index, size);
        Link<E> behind = linkAt(index);
        Object[] added = others.toArray();
        for (Object each : added) {
            insert((E) each, behind);
        }
        return added.length > 0;
    }

    /** Removes all elements, in constant time. */
    public void clear() {
        if (last != null) {
            last.behind = spare;
            spare = first;
        }
        first = null;
        last = null;
        size = 0;
        modCount++;
    }

    /** Makes a list of the same elements, in linear time. */
    public Object clone() {
        return new LinkedList<E>(this);
    }

    /** Makes an iterator, in the time from the nearer end. */
    public ListIterator<E> listIterator(int index) {
        Bounds.checkPlace(index, size);
        return new LinkWalk<E>(this, linkAt(index), index);
    }

    /** Makes an iterator from the last element to the first, in constant time. */
    public Iterator<E> descendingIterator() {
        return new BackWalk<E>(new LinkWalk<E>(this, null, size));
    }

    /** An iterator by the links. */
    static final class LinkWalk<E> implements ListIterator<E> {
        private final LinkedList<E> list;
        private Link<E> behind;
        private Link<E> returned;
        private int index;
        private int expected;

        LinkWalk(LinkedList<E> list, Link<E> behind, int index) {
            this.list = list;
            this.behind = behind;
            this.index = index;
            expected = list.modCount;
        }

        public boolean hasNext() {
            return index < list.size;
        }

        public E next() {
            checkUnchanged();
            returned = present(index < list.size ? behind : null);
            behind = returned.behind;
            index++;
            return returned.element;
        }

        public boolean hasPrevious() {
            return index > 0;
        }

        public E previous() {
            checkUnchanged();
            returned = present(index > 0 ? behind == null ? list.last : behind.before : null);
            behind = returned;
            index--;
            return returned.element;
        }

        public int nextIndex() {
            return index;
        }

        public int previousIndex() {
            return index - 1;
        }

        public void remove() {
            checkUnchanged();
            checkReturned();
            if (behind == returned) {
                behind = returned.behind;
            } else {
                index--;
            }
            list.unlink(returned);
            returned = null;
            expected = list.modCount;
        }

        public void set(E element) {
            checkReturned();
            checkUnchanged();
            returned.element = element;
        }

        public void add(E element) {
            checkUnchanged();
            returned = null;
            list.insert(element, behind);
            index++;
            expected = list.modCount;
        }

        private void checkReturned() {
            if (returned == null) {
                throw new IllegalStateException();
            }
        }

        private void checkUnchanged() {
            if (expected != list.modCount) {
                throw new ConcurrentModificationException();
            }
        }
    }

    /** An iterator that goes back. */
    static final class BackWalk<E> implements Iterator<E> {
        private final LinkWalk<E> walk;

        BackWalk(LinkWalk<E> walk) {
            this.walk = walk;
        }

        public boolean hasNext() {
            return walk.hasPrevious();
        }

        public E next() {
            return walk.previous();
        }

        public void remove() {
            walk.remove();
        }
    }
}
