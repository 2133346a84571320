package java.util;

import zuqelash.Texts;

/**
 * Operations on arrays. Those of doubles and floats aren't here, as there are none; neither are {@code copyOf} and
 * {@code copyOfRange} of an array of objects, since an array of the same type can't be made.
 */
public final class Arrays {
    Arrays() {
    }

    private static void checkPart(int length, int start, int end) {
        if (start > end) {
            StringBuilder message = new StringBuilder().append("fromIndex(").append(start).append(") > toIndex(").append(end);
            throw new IllegalArgumentException(message.append(')').toString());
        }
        if (start < 0 || end > length) {
            int wrong = start < 0 ? start : end;
            throw new ArrayIndexOutOfBoundsException(new StringBuilder().append("Array index out of range: ").append(wrong).toString());
        }
    }

    private static void checkCopy(int length, int start, int end) {
        if (start > end) {
            throw new IllegalArgumentException(new StringBuilder().append(start).append(" > ").append(end).toString());
        }
        if (start < 0 || start > length) {
            throw new ArrayIndexOutOfBoundsException();
        }
    }

    /** Returns a copy of another length, cut or with zeros behind, in linear time. */
    public static int[] copyOf(int[] array, int length) {
        int[] copy = new int[length];
        for (int index = Math.min(length, array.length) - 1; index >= 0; index--) {
            copy[index] = array[index];
        }
        return copy;
    }

    /** Returns a copy of a part, with zeros where it goes past the end, in linear time. */
    public static int[] copyOfRange(int[] array, int start, int end) {
        checkCopy(array.length, start, end);
        int[] copy = new int[end - start];
        for (int index = Math.min(end, array.length) - 1; index >= start; index--) {
            copy[index - start] = array[index];
        }
        return copy;
    }

    /** Returns a copy of another length, cut or with zeros behind, in linear time. */
    public static long[] copyOf(long[] array, int length) {
        long[] copy = new long[length];
        for (int index = Math.min(length, array.length) - 1; index >= 0; index--) {
            copy[index] = array[index];
        }
        return copy;
    }

    /** Returns a copy of a part, with zeros where it goes past the end, in linear time. */
    public static long[] copyOfRange(long[] array, int start, int end) {
        checkCopy(array.length, start, end);
        long[] copy = new long[end - start];
        for (int index = Math.min(end, array.length) - 1; index >= start; index--) {
            copy[index - start] = array[index];
        }
        return copy;
    }

    /** Returns a copy of another length, cut or with zeros behind, in linear time. */
    public static short[] copyOf(short[] array, int length) {
        short[] copy = new short[length];
        for (int index = Math.min(length, array.length) - 1; index >= 0; index--) {
            copy[index] = array[index];
        }
        return copy;
    }

    /** Returns a copy of a part, with zeros where it goes past the end, in linear time. */
    public static short[] copyOfRange(short[] array, int start, int end) {
        checkCopy(array.length, start, end);
        short[] copy = new short[end - start];
        for (int index = Math.min(end, array.length) - 1; index >= start; index--) {
            copy[index - start] = array[index];
        }
        return copy;
    }

    /** Returns a copy of another length, cut or with zeros behind, in linear time. */
    public static char[] copyOf(char[] array, int length) {
        char[] copy = new char[length];
        for (int index = Math.min(length, array.length) - 1; index >= 0; index--) {
            copy[index] = array[index];
        }
        return copy;
    }

    /** Returns a copy of a part, with zeros where it goes past the end, in linear time. */
    public static char[] copyOfRange(char[] array, int start, int end) {
        checkCopy(array.length, start, end);
        char[] copy = new char[end - start];
        for (int index = Math.min(end, array.length) - 1; index >= start; index--) {
            copy[index - start] = array[index];
        }
        return copy;
    }

    /** Returns a copy of another length, cut or with zeros behind, in linear time. */
    public static byte[] copyOf(byte[] array, int length) {
        byte[] copy = new byte[length];
        for (int index = Math.min(length, array.length) - 1; index >= 0; index--) {
            copy[index] = array[index];
        }
        return copy;
    }

    /** Returns a copy of a part, with zeros where it goes past the end, in linear time. */
    public static byte[] copyOfRange(byte[] array, int start, int end) {
        checkCopy(array.length, start, end);
        byte[] copy = new byte[end - start];
        for (int index = Math.min(end, array.length) - 1; index >= start; index--) {
            copy[index - start] = array[index];
        }
        return copy;
    }

    /** Returns a copy of another length, cut or with zeros behind, in linear time. */
    public static boolean[] copyOf(boolean[] array, int length) {
        boolean[] copy = new boolean[length];
        for (int index = Math.min(length, array.length) - 1; index >= 0; index--) {
            copy[index] = array[index];
        }
        return copy;
    }

    /** Returns a copy of a part, with zeros where it goes past the end, in linear time. */
    public static boolean[] copyOfRange(boolean[] array, int start, int end) {
        checkCopy(array.length, start, end);
        boolean[] copy = new boolean[end - start];
        for (int index = Math.min(end, array.length) - 1; index >= start; index--) {
            copy[index - start] = array[index];
        }
        return copy;
    }

    /** Sets all elements, in linear time. */
    public static void fill(int[] array, int value) {
        fill(array, 0, array.length, value);
    }

    /** Sets the elements from {@code start} to before {@code end}, in linear time. */
    public static void fill(int[] array, int start, int end, int value) {
        checkPart(array.length, start, end);
        for (int index = start; index < end; index++) {
            array[index] = value;
        }
    }

    /** Sets all elements, in linear time. */
    public static void fill(long[] array, long value) {
        fill(array, 0, array.length, value);
    }

    /** Sets the elements from {@code start} to before {@code end}, in linear time. */
    public static void fill(long[] array, int start, int end, long value) {
        checkPart(array.length, start, end);
        for (int index = start; index < end; index++) {
            array[index] = value;
        }
    }

    /** Sets all elements, in linear time. */
    public static void fill(short[] array, short value) {
        fill(array, 0, array.length, value);
    }

    /** Sets the elements from {@code start} to before {@code end}, in linear time. */
    public static void fill(short[] array, int start, int end, short value) {
        checkPart(array.length, start, end);
        for (int index = start; index < end; index++) {
            array[index] = value;
        }
    }

    /** Sets all elements, in linear time. */
    public static void fill(char[] array, char value) {
        fill(array, 0, array.length, value);
    }

    /** Sets the elements from {@code start} to before {@code end}, in linear time. */
    public static void fill(char[] array, int start, int end, char value) {
        checkPart(array.length, start, end);
        for (int index = start; index < end; index++) {
            array[index] = value;
        }
    }

    /** Sets all elements, in linear time. */
    public static void fill(byte[] array, byte value) {
        fill(array, 0, array.length, value);
    }

    /** Sets the elements from {@code start} to before {@code end}, in linear time. */
    public static void fill(byte[] array, int start, int end, byte value) {
        checkPart(array.length, start, end);
        for (int index = start; index < end; index++) {
            array[index] = value;
        }
    }

    /** Sets all elements, in linear time. */
    public static void fill(boolean[] array, boolean value) {
        fill(array, 0, array.length, value);
    }

    /** Sets the elements from {@code start} to before {@code end}, in linear time. */
    public static void fill(boolean[] array, int start, int end, boolean value) {
        checkPart(array.length, start, end);
        for (int index = start; index < end; index++) {
            array[index] = value;
        }
    }

    /** Sets all elements, in linear time. */
    public static void fill(Object[] array, Object value) {
        fill(array, 0, array.length, value);
    }

    /** Sets the elements from {@code start} to before {@code end}, in linear time. */
    public static void fill(Object[] array, int start, int end, Object value) {
        checkPart(array.length, start, end);
        for (int index = start; index < end; index++) {
            array[index] = value;
        }
    }

    /** Reports whether both are null, or have equal elements, in linear time. */
    public static boolean equals(int[] one, int[] other) {
        if (one == null || other == null || one.length != other.length) {
            return one == other;
        }
        for (int index = 0; index < one.length; index++) {
            if (one[index] != other[index]) {
                return false;
            }
        }
        return true;
    }

    /** Reports whether both are null, or have equal elements, in linear time. */
    public static boolean equals(long[] one, long[] other) {
        if (one == null || other == null || one.length != other.length) {
            return one == other;
        }
        for (int index = 0; index < one.length; index++) {
            if (one[index] != other[index]) {
                return false;
            }
        }
        return true;
    }

    /** Reports whether both are null, or have equal elements, in linear time. */
    public static boolean equals(short[] one, short[] other) {
        if (one == null || other == null || one.length != other.length) {
            return one == other;
        }
        for (int index = 0; index < one.length; index++) {
            if (one[index] != other[index]) {
                return false;
            }
        }
        return true;
    }

    /** Reports whether both are null, or have equal elements, in linear time. */
    public static boolean equals(char[] one, char[] other) {
        if (one == null || other == null || one.length != other.length) {
            return one == other;
        }
        for (int index = 0; index < one.length; index++) {
            if (one[index] != other[index]) {
                return false;
            }
        }
        return true;
    }

    /** Reports whether both are null, or have equal elements, in linear time. */
    public static boolean equals(byte[] one, byte[] other) {
        if (one == null || other == null || one.length != other.length) {
            return one == other;
        }
        for (int index = 0; index < one.length; index++) {
            if (one[index] != other[index]) {
                return false;
            }
        }
        return true;
    }

    /** Reports whether both are null, or have equal elements, in linear time. */
    public static boolean equals(boolean[] one, boolean[] other) {
        if (one == null || other == null || one.length != other.length) {
            return one == other;
        }
        for (int index = 0; index < one.length; index++) {
            if (one[index] != other[index]) {
                return false;
            }
        }
        return true;
    }

    /** Reports whether both are null, or have equal elements, in linear time. */
    public static boolean equals(Object[] one, Object[] other) {
        if (one == null || other == null || one.length != other.length) {
            return one == other;
        }
        for (int index = 0; index < one.length; index++) {
            if (!Objects.equals(one[index], other[index])) {
                return false;
            }
        }
        return true;
    }

    /** Returns the hash that a list of the elements has, or 0 for null, in linear time. */
    public static int hashCode(int[] array) {
        if (array == null) {
            return 0;
        }
        int hash = 1;
        for (int each : array) {
            hash = 31 * hash + each;
        }
        return hash;
    }

    /** Returns the hash that a list of the elements has, or 0 for null, in linear time. */
    public static int hashCode(long[] array) {
        if (array == null) {
            return 0;
        }
        int hash = 1;
        for (long each : array) {
            hash = 31 * hash + Long.hashCode(each);
        }
        return hash;
    }

    /** Returns the hash that a list of the elements has, or 0 for null, in linear time. */
    public static int hashCode(short[] array) {
        if (array == null) {
            return 0;
        }
        int hash = 1;
        for (short each : array) {
            hash = 31 * hash + each;
        }
        return hash;
    }

    /** Returns the hash that a list of the elements has, or 0 for null, in linear time. */
    public static int hashCode(char[] array) {
        if (array == null) {
            return 0;
        }
        int hash = 1;
        for (char each : array) {
            hash = 31 * hash + each;
        }
        return hash;
    }

    /** Returns the hash that a list of the elements has, or 0 for null, in linear time. */
    public static int hashCode(byte[] array) {
        if (array == null) {
            return 0;
        }
        int hash = 1;
        for (byte each : array) {
            hash = 31 * hash + each;
        }
        return hash;
    }

    /** Returns the hash that a list of the elements has, or 0 for null, in linear time. */
    public static int hashCode(boolean[] array) {
        if (array == null) {
            return 0;
        }
        int hash = 1;
        for (boolean each : array) {
            hash = 31 * hash + Boolean.hashCode(each);
        }
        return hash;
    }

    /** Returns the hash that a list of the elements has, or 0 for null, in linear time. */
    public static int hashCode(Object[] array) {
        if (array == null) {
            return 0;
        }
        int hash = 1;
        for (Object each : array) {
            hash = 31 * hash + Objects.hashCode(each);
        }
        return hash;
    }

    /** Returns the elements in brackets, with commas between them, in linear time. */
    public static String toString(int[] array) {
        if (array == null) {
            return "null";
        }
        long[] numbers = new long[array.length];
        for (int index = 0; index < array.length; index++) {
            numbers[index] = array[index];
        }
        return Texts.listed('[', numbers, ']');
    }

    /** Returns the elements in brackets, with commas between them, in linear time. */
    public static String toString(long[] array) {
        if (array == null) {
            return "null";
        }
        return Texts.listed('[', array, ']');
    }

    /** Returns the elements in brackets, with commas between them, in linear time. */
    public static String toString(short[] array) {
        if (array == null) {
            return "null";
        }
        long[] numbers = new long[array.length];
        for (int index = 0; index < array.length; index++) {
            numbers[index] = array[index];
        }
        return Texts.listed('[', numbers, ']');
    }

    /** Returns the elements in brackets, with commas between them, in linear time. */
    public static String toString(byte[] array) {
        if (array == null) {
            return "null";
        }
        long[] numbers = new long[array.length];
        for (int index = 0; index < array.length; index++) {
            numbers[index] = array[index];
        }
        return Texts.listed('[', numbers, ']');
    }

    /** Returns the elements in brackets, with commas between them, in linear time. */
    public static String toString(char[] array) {
        if (array == null) {
            return "null";
        }
        String[] texts = new String[array.length];
        for (int index = 0; index < texts.length; index++) {
            texts[index] = String.valueOf(array[index]);
        }
        return Texts.joined("[", texts, texts.length, ", ", ", ", "]");
    }

    /** Returns the elements in brackets, with commas between them, in linear time. */
    public static String toString(boolean[] array) {
        if (array == null) {
            return "null";
        }
        String[] texts = new String[array.length];
        for (int index = 0; index < texts.length; index++) {
            texts[index] = array[index] ? "true" : "false";
        }
        return Texts.joined("[", texts, texts.length, ", ", ", ", "]");
    }

    /** Returns the elements in brackets, with commas between them, in linear time. */
    public static String toString(Object[] array) {
        if (array == null) {
            return "null";
        }
        String[] texts = new String[array.length];
        for (int index = 0; index < texts.length; index++) {
            texts[index] = Objects.toString(array[index]);
        }
        return Texts.joined("[", texts, texts.length, ", ", ", ", "]");
    }

    /** Sorts the elements in place, in {@code n log n} time. */
    public static void sort(int[] array) {
        sort(array, 0, array.length);
    }

    /** Sorts a part in place, in {@code n log n} time. */
    public static void sort(int[] array, int start, int end) {
        checkPart(array.length, start, end);
        IntSort.sort(array, start, end);
    }

    /** Returns the index of an element of a sorted array, or {@code -(place) - 1}, in logarithmic time. */
    public static int binarySearch(int[] array, int wanted) {
        return binarySearch(array, 0, array.length, wanted);
    }

    /** Returns the index of an element of a sorted part, or {@code -(place) - 1}, in logarithmic time. */
    public static int binarySearch(int[] array, int start, int end, int wanted) {
        checkPart(array.length, start, end);
        int low = start;
        int high = end - 1;
        while (low <= high) {
            int middle = low + high >>> 1;
            if (array[middle] < wanted) {
                low = middle + 1;
            } else if (array[middle] > wanted) {
                high = middle - 1;
            } else {
                return middle;
            }
        }
        return -(low + 1);
    }

    /** Sorts the elements in place, in {@code n log n} time. */
    public static void sort(long[] array) {
        sort(array, 0, array.length);
    }

    /** Sorts a part in place, in {@code n log n} time. */
    public static void sort(long[] array, int start, int end) {
        checkPart(array.length, start, end);
        LongSort.sort(array, start, end);
    }

    /** Returns the index of an element of a sorted array, or {@code -(place) - 1}, in logarithmic time. */
    public static int binarySearch(long[] array, long wanted) {
        return binarySearch(array, 0, array.length, wanted);
    }

    /** Returns the index of an element of a sorted part, or {@code -(place) - 1}, in logarithmic time. */
    public static int binarySearch(long[] array, int start, int end, long wanted) {
        checkPart(array.length, start, end);
        int low = start;
        int high = end - 1;
        while (low <= high) {
            int middle = low + high >>> 1;
            if (array[middle] < wanted) {
                low = middle + 1;
            } else if (array[middle] > wanted) {
                high = middle - 1;
            } else {
                return middle;
            }
        }
        return -(low + 1);
    }

    /** Sorts the elements in {@code n log n} time, through an array of ints that is freed. */
    public static void sort(short[] array) {
        sort(array, 0, array.length);
    }

    /** Sorts a part in {@code n log n} time, through an array of ints that is freed. */
    public static void sort(short[] array, int start, int end) {
        checkPart(array.length, start, end);
        int[] ints = new int[end - start];
        for (int index = start; index < end; index++) {
            ints[index - start] = array[index];
        }
        IntSort.sort(ints, 0, ints.length);
        for (int index = start; index < end; index++) {
            array[index] = (short) ints[index - start];
        }
    }

    /** Returns the index of an element of a sorted array, or {@code -(place) - 1}, in logarithmic time. */
    public static int binarySearch(short[] array, short wanted) {
        return binarySearch(array, 0, array.length, wanted);
    }

    /** Returns the index of an element of a sorted part, or {@code -(place) - 1}, in logarithmic time. */
    public static int binarySearch(short[] array, int start, int end, short wanted) {
        checkPart(array.length, start, end);
        int low = start;
        int high = end - 1;
        while (low <= high) {
            int middle = low + high >>> 1;
            if (array[middle] < wanted) {
                low = middle + 1;
            } else if (array[middle] > wanted) {
                high = middle - 1;
            } else {
                return middle;
            }
        }
        return -(low + 1);
    }

    /** Sorts the elements in {@code n log n} time, through an array of ints that is freed. */
    public static void sort(char[] array) {
        sort(array, 0, array.length);
    }

    /** Sorts a part in {@code n log n} time, through an array of ints that is freed. */
    public static void sort(char[] array, int start, int end) {
        checkPart(array.length, start, end);
        int[] ints = new int[end - start];
        for (int index = start; index < end; index++) {
            ints[index - start] = array[index];
        }
        IntSort.sort(ints, 0, ints.length);
        for (int index = start; index < end; index++) {
            array[index] = (char) ints[index - start];
        }
    }

    /** Returns the index of an element of a sorted array, or {@code -(place) - 1}, in logarithmic time. */
    public static int binarySearch(char[] array, char wanted) {
        return binarySearch(array, 0, array.length, wanted);
    }

    /** Returns the index of an element of a sorted part, or {@code -(place) - 1}, in logarithmic time. */
    public static int binarySearch(char[] array, int start, int end, char wanted) {
        checkPart(array.length, start, end);
        int low = start;
        int high = end - 1;
        while (low <= high) {
            int middle = low + high >>> 1;
            if (array[middle] < wanted) {
                low = middle + 1;
            } else if (array[middle] > wanted) {
                high = middle - 1;
            } else {
                return middle;
            }
        }
        return -(low + 1);
    }

    /** Sorts the elements in {@code n log n} time, through an array of ints that is freed. */
    public static void sort(byte[] array) {
        sort(array, 0, array.length);
    }

    /** Sorts a part in {@code n log n} time, through an array of ints that is freed. */
    public static void sort(byte[] array, int start, int end) {
        checkPart(array.length, start, end);
        int[] ints = new int[end - start];
        for (int index = start; index < end; index++) {
            ints[index - start] = array[index];
        }
        IntSort.sort(ints, 0, ints.length);
        for (int index = start; index < end; index++) {
            array[index] = (byte) ints[index - start];
        }
    }

    /** Returns the index of an element of a sorted array, or {@code -(place) - 1}, in logarithmic time. */
    public static int binarySearch(byte[] array, byte wanted) {
        return binarySearch(array, 0, array.length, wanted);
    }

    /** Returns the index of an element of a sorted part, or {@code -(place) - 1}, in logarithmic time. */
    public static int binarySearch(byte[] array, int start, int end, byte wanted) {
        checkPart(array.length, start, end);
        int low = start;
        int high = end - 1;
        while (low <= high) {
            int middle = low + high >>> 1;
            if (array[middle] < wanted) {
                low = middle + 1;
            } else if (array[middle] > wanted) {
                high = middle - 1;
            } else {
                return middle;
            }
        }
        return -(low + 1);
    }

    /** Sorts by merging in the natural order, in {@code n log n} steps of it, through an array that is freed; equal elements keep their order. */
    public static void sort(Object[] array) {
        MergeSort.sort(array, 0, array.length, null);
    }

    /** Sorts a part in the natural order, as the whole. */
    public static void sort(Object[] array, int start, int end) {
        checkPart(array.length, start, end);
        MergeSort.sort(array, start, end, null);
    }

    /** Sorts by an order, or by the natural one where it is null, as above. */
    public static <T> void sort(T[] array, Comparator<? super T> order) {
        MergeSort.sort(array, 0, array.length, (Comparator<Object>) order);
    }

    /** Sorts a part by an order, or by the natural one where it is null, as above. */
    public static <T> void sort(T[] array, int start, int end, Comparator<? super T> order) {
        checkPart(array.length, start, end);
        MergeSort.sort(array, start, end, (Comparator<Object>) order);
    }

    /** Returns the index of an element of an array in the natural order, or {@code -(place) - 1}, in logarithmically many steps of it. */
    public static int binarySearch(Object[] array, Object wanted) {
        return binarySearch(array, 0, array.length, wanted, null);
    }

    /** Returns the index of an element of a part in the natural order, or {@code -(place) - 1}, in logarithmically many steps of it. */
    public static int binarySearch(Object[] array, int start, int end, Object wanted) {
        return binarySearch(array, start, end, wanted, null);
    }

    /** Returns the index of an element of an array in an order, or {@code -(place) - 1}, in logarithmically many steps of it. */
    public static <T> int binarySearch(T[] array, T wanted, Comparator<? super T> order) {
        return binarySearch(array, 0, array.length, wanted, order);
    }

    /** Returns the index of an element of a part in an order, or {@code -(place) - 1}, in logarithmically many steps of it. */
    public static <T> int binarySearch(T[] array, int start, int end, T wanted, Comparator<? super T> order) {
        checkPart(array.length, start, end);
        int low = start;
        int high = end - 1;
        while (low <= high) {
            int middle = low + high >>> 1;
            int compared = Natural.compare(array[middle], wanted, order);
            if (compared == 0) {
                return middle;
            }
            if (compared < 0) {
                low = middle + 1;
            } else {
                high = middle - 1;
            }
        }
        return -(low + 1);
    }

    /** Makes a list of fixed length whose elements are those of the array, in constant time. */
    public static <T> List<T> asList(T... array) {
        return new ArrayView<T>(Objects.requireNonNull(array));
    }

    /** Reports whether two arrays have equal elements, arrays in them too, in the time of all elements. */
    public static boolean deepEquals(Object[] one, Object[] other) {
        return DeepArrays.equals(one, other);
    }

    /** Returns the hash of an array, with those of arrays in it, in the time of all elements. */
    public static int deepHashCode(Object[] array) {
        return DeepArrays.hashCode(array);
    }

    /** Returns an array as a text, with the texts of arrays in it, in the time of the text for each array around its parts. */
    public static String deepToString(Object[] array) {
        return array == null ? "null" : DeepArrays.toString(array, new ArrayList<Object[]>());
    }
}
