package java.util;

/** Sorts longs in place: by parts around a middle element, by inserting where they are short, and by a heap where the parts stay too long. */
final class LongSort {
    private static final int SHORT = 16;

    LongSort() {
    }

    static void sort(long[] array, int start, int end) {
        int splits = 2 * (32 - Integer.numberOfLeadingZeros(end - start));
        sort(array, start, end, splits);
    }

    private static void sort(long[] array, int start, int end, int splits) {
        while (end - start > SHORT) {
            if (splits-- == 0) {
                sortByHeap(array, start, end - start);
                return;
            }
            int middle = split(array, start, end - 1);
            if (middle - start < end - middle) {
                sort(array, start, middle, splits);
                start = middle;
            } else {
                sort(array, middle, end, splits);
                end = middle;
            }
        }
        insert(array, start, end);
    }

    /** Puts what is at most the middle one of three before the index that it returns, and what is at least it behind. */
    private static int split(long[] array, int low, int high) {
        long pivot = middle(array[low], array[low + high >>> 1], array[high]);
        while (low <= high) {
            while (array[low] < pivot) {
                low++;
            }
            while (array[high] > pivot) {
                high--;
            }
            if (low <= high) {
                long exchanged = array[low];
                array[low++] = array[high];
                array[high--] = exchanged;
            }
        }
        return low;
    }

    private static long middle(long one, long two, long three) {
        return Math.max(Math.min(one, two), Math.min(Math.max(one, two), three));
    }

    private static void insert(long[] array, int start, int end) {
        for (int next = start + 1; next < end; next++) {
            long inserted = array[next];
            int index = next;
            while (index > start && array[index - 1] > inserted) {
                array[index] = array[index - 1];
                index--;
            }
            array[index] = inserted;
        }
    }

    private static void sortByHeap(long[] array, int start, int count) {
        for (int root = count / 2 - 1; root >= 0; root--) {
            sink(array, start, count, root);
        }
        while (--count > 0) {
            long greatest = array[start];
            array[start] = array[start + count];
            array[start + count] = greatest;
            sink(array, start, count, 0);
        }
    }

    private static void sink(long[] array, int start, int count, int root) {
        long sunk = array[start + root];
        int child = 2 * root + 1;
        while (child < count) {
            if (child + 1 < count && array[start + child] < array[start + child + 1]) {
                child++;
            }
            if (sunk >= array[start + child]) {
                break;
            }
            array[start + root] = array[start + child];
            root = child;
            child = 2 * root + 1;
        }
        array[start + root] = sunk;
    }
}
