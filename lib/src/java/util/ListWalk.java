package java.util;

/** An iterator over any list, by its indices. */
final class ListWalk<E> implements ListIterator<E> {
    private final AbstractList<E> list;
    private int index;
    private int last = -1;
    private int expected;

    ListWalk(AbstractList<E> list, int index) {
        this.list = list;
        this.index = index;
        expected = list.modCount;
    }

    public boolean hasNext() {
        return index != list.size();
    }

    public E next() {
        checkUnchanged();
        if (index >= list.size()) {
            throw new NoSuchElementException();
        }
        last = index++;
        return list.get(last);
    }

    public boolean hasPrevious() {
        return index != 0;
    }

    public E previous() {
        checkUnchanged();
        if (index <= 0) {
            throw new NoSuchElementException();
        }
        last = --index;
        return list.get(last);
    }

    public int nextIndex() {
        return index;
    }

    public int previousIndex() {
        return index - 1;
    }

    public void remove() {
        checkReturned();
        checkUnchanged();
        list.remove(last);
        if (last < index) {
            index--;
        }
        last = -1;
        expected = list.modCount;
    }

    public void set(E element) {
        checkReturned();
        checkUnchanged();
        list.set(last, element);
        expected = list.modCount;
    }

    public void add(E element) {
        checkUnchanged();
        list.add(index++, element);
        last = -1;
        expected = list.modCount;
    }

    private void checkReturned() {
        if (last < 0) {
            throw new IllegalStateException();
        }
    }

    private void checkUnchanged() {
        if (expected != list.modCount) {
            throw new ConcurrentModificationException();
        }
    }
}
