package java.util;

/** A view of a part of a list. */
class SubList<E> extends AbstractList<E> {
    private final AbstractList<E> list;
    private final int start;
    private int size;

    /** A view of a part of a list that finds elements by their index. */
    static final class OfRandom<E> extends SubList<E> implements RandomAccess {
        OfRandom(AbstractList<E> list, int start, int end) {
            super(list, start, end);
        }
    }

    SubList(AbstractList<E> list, int start, int end) {
        this.list = list;
        this.start = start;
        size = end - start;
        modCount = list.modCount;
    }

    public int size() {
        checkUnchanged();
        return size;
    }

    public E get(int index) {
        Bounds.checkElement(index, size);
        checkUnchanged();
        return list.get(start + index);
    }

    public E set(int index, E element) {
        Bounds.checkElement(index, size);
        checkUnchanged();
        return list.set(start + index, element);
    }

    public void add(int index, E element) {
        Bounds.checkPlace(index, size);
        checkUnchanged();
        list.add(start + index, element);
        changeSize(1);
    }

    public E remove(int index) {
        Bounds.checkElement(index, size);
        checkUnchanged();
        E removed = list.remove(start + index);
        changeSize(-1);
        return removed;
    }

    public boolean addAll(Collection<? extends E> others) {
        return addAll(size, others);
    }

    public boolean addAll(int index, Collection<? extends E> others) {
        Bounds.checkPlace(index, size);
        checkUnchanged();
        int added = others.size();
        if (added == 0) {
            return false;
        }
        list.addAll(start + index, others);
        changeSize(added);
        return true;
    }

    protected void removeRange(int from, int to) {
        checkUnchanged();
        list.removeRange(start + from, start + to);
        changeSize(from - to);
    }

    private void changeSize(int difference) {
        size += difference;
        modCount = list.modCount;
    }

    private void checkUnchanged() {
        if (modCount != list.modCount) {
            throw new ConcurrentModificationException();
        }
    }
}
