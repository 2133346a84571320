package java.util;

/** Operations that take null too. */
public final class Objects {
    Objects() {
    }

    /** Reports whether both are null, or equal: the time of {@code equals}. */
    public static boolean equals(Object one, Object other) {
        return one == other || one != null && one.equals(other);
    }

    /** Returns the hash of an object, or 0 for null: the time of {@code hashCode}. */
    public static int hashCode(Object object) {
        return object == null ? 0 : object.hashCode();
    }

    /** Returns the hash of the objects as of a list of them, in the time of their hashes. */
    public static int hash(Object... objects) {
        return Arrays.hashCode(objects);
    }

    /** Returns the object as a text, or {@code null} for null: the time of {@code toString}. */
    public static String toString(Object object) {
        return object == null ? "null" : object.toString();
    }

    /** Returns the object as a text, or another text for null: the time of {@code toString}. */
    public static String toString(Object object, String other) {
        return object == null ? other : object.toString();
    }

    /** Compares two objects, equal where they are the same: the time of the order. */
    public static <T> int compare(T one, T other, Comparator<? super T> order) {
        return one == other ? 0 : order.compare(one, other);
    }

    /** Returns the object, or throws NullPointerException for null, in constant time. */
    public static <T> T requireNonNull(T object) {
        if (object == null) {
            throw new NullPointerException();
        }
        return object;
    }

    /** Returns the object, or throws NullPointerException with a message for null, in constant time. */
    public static <T> T requireNonNull(T object, String message) {
        if (object == null) {
            throw new NullPointerException(message);
        }
        return object;
    }

    /** Reports whether the object is null, in constant time. */
    public static boolean isNull(Object object) {
        return object == null;
    }

    /** Reports whether the object is not null, in constant time. */
    public static boolean nonNull(Object object) {
        return object != null;
    }
}
