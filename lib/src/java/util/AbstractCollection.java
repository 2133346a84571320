package java.util;

import zuqelash.Texts;

/** What collections have in common: a class adds {@code size} and {@code iterator}, and {@code add} where it can grow. */
public abstract class AbstractCollection<E> implements Collection<E> {
    /** Makes a collection, in constant time. */
    protected AbstractCollection() {
    }

    /** Returns how many elements there are, at the cost that the class has. */
    public abstract int size();

    /** Makes an iterator, at the cost that the class has. */
    public abstract Iterator<E> iterator();

    /** Reports whether there are no elements, in the time of {@code size}. */
    public boolean isEmpty() {
        return size() == 0;
    }

    /** Looks for an equal element, one after the other: linear time. */
    public boolean contains(Object element) {
        for (E each : this) {
            if (Objects.equals(element, each)) {
                return true;
            }
        }
        return false;
    }

    /** Returns a new array of the elements, in linear time. */
    public Object[] toArray() {
        Object[] array = new Object[size()];
        fill(array);
        return array;
    }

    /** Fills an array that has room, in linear time, or throws UnsupportedOperationException where it has not. */
    public <T> T[] toArray(T[] array) {
        int size = size();
        if (array.length < size) {
            throw new UnsupportedOperationException("toArray: the array is too short");
        }
        fill(array);
        if (array.length > size) {
            array[size] = null;
        }
        return array;
    }

    private void fill(Object[] array) {
        int index = 0;
        for (E each : this) {
            array[index++] = each;
        }
    }

    /** Throws UnsupportedOperationException: a class that can grow overrides it. */
    public boolean add(E element) {
        throw new UnsupportedOperationException();
    }

    /** Looks for an equal element and removes it by the iterator: linear time. */
    public boolean remove(Object element) {
        Iterator<E> each = iterator();
        while (each.hasNext()) {
            if (Objects.equals(element, each.next())) {
                each.remove();
                return true;
            }
        }
        return false;
    }

    /** Asks {@code contains} for each of the others. */
    public boolean containsAll(Collection<?> others) {
        for (Object each : others) {
            if (!contains(each)) {
                return false;
            }
        }
        return true;
    }

    /** Calls {@code add} for each of the others. */
    public boolean addAll(Collection<? extends E> others) {
        boolean isChanged = false;
        for (E each : others) {
            if (add(each)) {
                isChanged = true;
            }
        }
        return isChanged;
    }

    /** Asks {@code others.contains} of each element, and removes it by the iterator. */
    public boolean removeAll(Collection<?> others) {
        return removeWhere(others, true);
    }

    /** Asks {@code others.contains} of each element, and removes it by the iterator. */
    public boolean retainAll(Collection<?> others) {
        return removeWhere(others, false);
    }

    private boolean removeWhere(Collection<?> others, boolean isContained) {
        Objects.requireNonNull(others);
        boolean isChanged = false;
        Iterator<E> each = iterator();
        while (each.hasNext()) {
            if (others.contains(each.next()) == isContained) {
                each.remove();
                isChanged = true;
            }
        }
        return isChanged;
    }

    /** Removes the elements one by one. */
    public void clear() {
        Iterator<E> each = iterator();
        while (each.hasNext()) {
            each.next();
            each.remove();
        }
    }

    /** Returns the elements in brackets, with commas between them, in linear time. */
    public String toString() {
        String[] texts = new String[size()];
        int count = 0;
        Iterator<E> elements = iterator();
        while (count < texts.length && elements.hasNext()) {
            E each = elements.next();
            texts[count++] = each == this ? "(this Collection)" : Objects.toString(each);
        }
        return Texts.joined("[", texts, count, ", ", ", ", "]");
    }
}
