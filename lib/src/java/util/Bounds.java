package java.util;

/** The exceptions of indices that are out of bounds, with their messages. */
final class Bounds {
    Bounds() {
    }

    /** Checks the index of an element. */
    static void checkElement(int index, int size) {
        if (index < 0 || index >= size) {
            StringBuilder message = new StringBuilder().append("Index ").append(index);
            throw new IndexOutOfBoundsException(message.append(" out of bounds for length ").append(size).toString());
        }
    }

    /** Checks the index of an element of a linked list, whose message is another one. */
    static void checkLinked(int index, int size) {
        if (index < 0 || index >= size) {
            throw outside(index, size);
        }
    }

    /** Checks the index of a place between elements, before the first or behind the last one. */
    static void checkPlace(int index, int size) {
        if (index < 0 || index > size) {
            throw outside(index, size);
        }
    }

    private static IndexOutOfBoundsException outside(int index, int size) {
        return new IndexOutOfBoundsException(new StringBuilder().append("Index: ").append(index).append(", Size: ").append(size).toString());
    }

    /** Checks the two ends of a part. */
    static void checkPart(int start, int end, int size) {
        if (start < 0) {
            throw new IndexOutOfBoundsException(new StringBuilder().append("fromIndex = ").append(start).toString());
        }
        if (end > size) {
            throw new IndexOutOfBoundsException(new StringBuilder().append("toIndex = ").append(end).toString());
        }
        if (start > end) {
            StringBuilder message = new StringBuilder().append("fromIndex(").append(start).append(") > toIndex(").append(end);
            throw new IllegalArgumentException(message.append(')').toString());
        }
    }
}
