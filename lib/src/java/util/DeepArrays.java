package java.util;

import zuqelash.Texts;

/** Arrays with the arrays in them. */
final class DeepArrays {
    DeepArrays() {
    }

    static boolean equals(Object[] one, Object[] other) {
        if (one == null || other == null || one.length != other.length) {
            return one == other;
        }
        for (int index = 0; index < one.length; index++) {
            if (!areEqual(one[index], other[index])) {
                return false;
            }
        }
        return true;
    }

    private static boolean areEqual(Object one, Object other) {
        if (one == other) {
            return true;
        }
        if (one instanceof Object[] && other instanceof Object[]) {
            return equals((Object[]) one, (Object[]) other);
        }
        if (one instanceof int[] && other instanceof int[]) {
            return Arrays.equals((int[]) one, (int[]) other);
        }
        if (one instanceof long[] && other instanceof long[]) {
            return Arrays.equals((long[]) one, (long[]) other);
        }
        if (one instanceof short[] && other instanceof short[]) {
            return Arrays.equals((short[]) one, (short[]) other);
        }
        if (one instanceof char[] && other instanceof char[]) {
            return Arrays.equals((char[]) one, (char[]) other);
        }
        if (one instanceof byte[] && other instanceof byte[]) {
            return Arrays.equals((byte[]) one, (byte[]) other);
        }
        if (one instanceof boolean[] && other instanceof boolean[]) {
            return Arrays.equals((boolean[]) one, (boolean[]) other);
        }
        return Objects.equals(one, other);
    }

    static int hashCode(Object[] array) {
        if (array == null) {
            return 0;
        }
        int hash = 1;
        for (Object each : array) {
            hash = 31 * hash + hashOf(each);
        }
        return hash;
    }

    private static int hashOf(Object element) {
        if (element instanceof Object[]) {
            return hashCode((Object[]) element);
        }
        if (element instanceof int[]) {
            return Arrays.hashCode((int[]) element);
        }
        if (element instanceof long[]) {
            return Arrays.hashCode((long[]) element);
        }
        if (element instanceof short[]) {
            return Arrays.hashCode((short[]) element);
        }
        if (element instanceof char[]) {
            return Arrays.hashCode((char[]) element);
        }
        if (element instanceof byte[]) {
            return Arrays.hashCode((byte[]) element);
        }
        if (element instanceof boolean[]) {
            return Arrays.hashCode((boolean[]) element);
        }
        return Objects.hashCode(element);
    }

    /** Returns an array as a text: {@code above} are those that it is in. */
    static String toString(Object[] array, ArrayList<Object[]> above) {
        above.add(array);
        String[] texts = new String[array.length];
        for (int index = 0; index < texts.length; index++) {
            Object element = array[index];
            if (!(element instanceof Object[])) {
                texts[index] = textOf(element);
            } else {
                texts[index] = isAmong(above, element) ? "[...]" : toString((Object[]) element, above);
            }
        }
        above.remove(above.size() - 1);
        return Texts.joined("[", texts, texts.length, ", ", ", ", "]");
    }

    private static boolean isAmong(ArrayList<Object[]> arrays, Object wanted) {
        for (int index = 0; index < arrays.size(); index++) {
            if (arrays.get(index) == wanted) {
                return true;
            }
        }
        return false;
    }

    private static String textOf(Object element) {
        if (element instanceof int[]) {
            return Arrays.toString((int[]) element);
        }
        if (element instanceof long[]) {
            return Arrays.toString((long[]) element);
        }
        if (element instanceof short[]) {
            return Arrays.toString((short[]) element);
        }
        if (element instanceof char[]) {
            return Arrays.toString((char[]) element);
        }
        if (element instanceof byte[]) {
            return Arrays.toString((byte[]) element);
        }
        if (element instanceof boolean[]) {
            return Arrays.toString((boolean[]) element);
        }
        return Objects.toString(element);
    }
}
