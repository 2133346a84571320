package java.util;

/** A list of fixed length over an array. */
final class ArrayView<E> extends AbstractList<E> implements RandomAccess {
    private final E[] array;

    ArrayView(E[] array) {
        this.array = array;
    }

    public int size() {
        return array.length;
    }

    public E get(int index) {
        return array[index];
    }

    public E set(int index, E element) {
        E old = array[index];
        array[index] = element;
        return old;
    }

    public void sort(Comparator<? super E> order) {
        Arrays.sort(array, order);
    }
}
