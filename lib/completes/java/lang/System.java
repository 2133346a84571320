package java.lang;

/** What the system has besides what is built in; its two streams are the built-in ones. */
public final class System {
    public static java.io.PrintStream out;
    public static java.io.InputStream in;

    System() {
    }

    public static native void exit(int status);

    /** Returns what ends a line. */
    public static String lineSeparator() {
        return "\n";
    }

    /** Copies elements of an array into another, as if over a third one, in the time of their number. */
    public static void arraycopy(Object from, int start, Object to, int place, int count) {
        if (from == null || to == null) {
            throw new NullPointerException();
        }
        if (from instanceof Object[] && to instanceof Object[]) {
            copy((Object[]) from, start, (Object[]) to, place, count);
        } else if (from instanceof int[] && to instanceof int[]) {
            copy((int[]) from, start, (int[]) to, place, count);
        } else if (from instanceof long[] && to instanceof long[]) {
            copy((long[]) from, start, (long[]) to, place, count);
        } else if (from instanceof char[] && to instanceof char[]) {
            copy((char[]) from, start, (char[]) to, place, count);
        } else if (from instanceof byte[] && to instanceof byte[]) {
            copy((byte[]) from, start, (byte[]) to, place, count);
        } else if (from instanceof short[] && to instanceof short[]) {
            copy((short[]) from, start, (short[]) to, place, count);
        } else if (from instanceof boolean[] && to instanceof boolean[]) {
            copy((boolean[]) from, start, (boolean[]) to, place, count);
        } else {
            throw new ArrayStoreException();
        }
    }

    private static void check(int length, int start, int others, int place, int count) {
        if (start < 0 || place < 0 || count < 0 || start > length - count || place > others - count) {
            throw new ArrayIndexOutOfBoundsException();
        }
    }

    private static void copy(Object[] from, int start, Object[] to, int place, int count) {
        check(from.length, start, to.length, place, count);
        if (from == to && start < place) {
            for (int index = count - 1; index >= 0; index--) {
                to[place + index] = from[start + index];
            }
        } else {
            for (int index = 0; index < count; index++) {
                to[place + index] = from[start + index];
            }
        }
    }

    private static void copy(int[] from, int start, int[] to, int place, int count) {
        check(from.length, start, to.length, place, count);
        if (from == to && start < place) {
            for (int index = count - 1; index >= 0; index--) {
                to[place + index] = from[start + index];
            }
        } else {
            for (int index = 0; index < count; index++) {
                to[place + index] = from[start + index];
            }
        }
    }

    private static void copy(long[] from, int start, long[] to, int place, int count) {
        check(from.length, start, to.length, place, count);
        if (from == to && start < place) {
            for (int index = count - 1; index >= 0; index--) {
                to[place + index] = from[start + index];
            }
        } else {
            for (int index = 0; index < count; index++) {
                to[place + index] = from[start + index];
            }
        }
    }

    private static void copy(char[] from, int start, char[] to, int place, int count) {
        check(from.length, start, to.length, place, count);
        if (from == to && start < place) {
            for (int index = count - 1; index >= 0; index--) {
                to[place + index] = from[start + index];
            }
        } else {
            for (int index = 0; index < count; index++) {
                to[place + index] = from[start + index];
            }
        }
    }

    private static void copy(byte[] from, int start, byte[] to, int place, int count) {
        check(from.length, start, to.length, place, count);
        if (from == to && start < place) {
            for (int index = count - 1; index >= 0; index--) {
                to[place + index] = from[start + index];
            }
        } else {
            for (int index = 0; index < count; index++) {
                to[place + index] = from[start + index];
            }
        }
    }

    private static void copy(short[] from, int start, short[] to, int place, int count) {
        check(from.length, start, to.length, place, count);
        if (from == to && start < place) {
            for (int index = count - 1; index >= 0; index--) {
                to[place + index] = from[start + index];
            }
        } else {
            for (int index = 0; index < count; index++) {
                to[place + index] = from[start + index];
            }
        }
    }

    private static void copy(boolean[] from, int start, boolean[] to, int place, int count) {
        check(from.length, start, to.length, place, count);
        if (from == to && start < place) {
            for (int index = count - 1; index >= 0; index--) {
                to[place + index] = from[start + index];
            }
        } else {
            for (int index = 0; index < count; index++) {
                to[place + index] = from[start + index];
            }
        }
    }
}
