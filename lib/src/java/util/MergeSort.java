package java.util;

/** Sorts objects so that equal ones keep their order: halves are sorted and merged, short parts sorted by inserting. */
final class MergeSort {
    private static final int SHORT = 7;

    MergeSort() {
    }

    /** Sorts a part by an order, or by the natural one where it is null. */
    static void sort(Object[] array, int start, int end, Comparator<Object> order) {
        Object[] room = new Object[(end - start) / 2];
        sort(array, start, end, order, room);
    }

    private static void sort(Object[] array, int start, int end, Comparator<Object> order, Object[] room) {
        if (end - start < SHORT) {
            insert(array, start, end, order);
            return;
        }
        int middle = start + end >>> 1;
        sort(array, start, middle, order, room);
        sort(array, middle, end, order, room);
        if (Natural.compare(array[middle - 1], array[middle], order) > 0) {
            merge(array, start, middle, end, order, room);
        }
    }

    private static void merge(Object[] array, int start, int middle, int end, Comparator<Object> order, Object[] room) {
        int count = middle - start;
        for (int index = 0; index < count; index++) {
            room[index] = array[start + index];
        }
        int left = 0;
        int right = middle;
        int next = start;
        while (left < count && right < end) {
            boolean isLeft = Natural.compare(room[left], array[right], order) <= 0;
            array[next++] = isLeft ? room[left++] : array[right++];
        }
        while (left < count) {
            array[next++] = room[left++];
        }
    }

    private static void insert(Object[] array, int start, int end, Comparator<Object> order) {
        for (int next = start + 1; next < end; next++) {
            Object inserted = array[next];
            int index = next;
            while (index > start && Natural.compare(array[index - 1], inserted, order) > 0) {
                array[index] = array[index - 1];
                index--;
            }
            array[index] = inserted;
        }
    }
}
