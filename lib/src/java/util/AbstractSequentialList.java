package java.util;

/** What lists have in common that have to be gone through: a class adds {@code listIterator} and {@code size}. */
public abstract class AbstractSequentialList<E> extends AbstractList<E> {
    /** Makes a list, in constant time. */
    protected AbstractSequentialList() {
    }

    /** Makes an iterator that begins before an index, at the cost that the class has. */
    public abstract ListIterator<E> listIterator(int index);

    /** Makes an iterator, in constant time. */
    public ListIterator<E> listIterator() {
        return listIterator(0);
    }

    /** Makes an iterator, in constant time. */
    public Iterator<E> iterator() {
        return listIterator(0);
    }

    /** Returns the element at an index, in the time to get there. */
    public E get(int index) {
        Bounds.checkElement(index, size());
        return listIterator(index).next();
    }

    /** Replaces the element at an index, in the time to get there. */
    public E set(int index, E element) {
        Bounds.checkElement(index, size());
        ListIterator<E> place = listIterator(index);
        E old = place.next();
        place.set(element);
        return old;
    }

    /** Inserts an element, in the time to get there. */
    public void add(int index, E element) {
        listIterator(index).add(element);
    }

    /** Removes the element at an index, in the time to get there. */
    public E remove(int index) {
        Bounds.checkElement(index, size());
        ListIterator<E> place = listIterator(index);
        E removed = place.next();
        place.remove();
        return removed;
    }

    /** Inserts all elements of a collection, in the time to get there and of these. */
    public boolean addAll(int index, Collection<? extends E> others) {
        ListIterator<E> place = listIterator(index);
        boolean isChanged = false;
        for (E each : others) {
            place.add(each);
            isChanged = true;
        }
        return isChanged;
    }
}
