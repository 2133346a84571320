import java.io.EOFException;
import java.io.FileNotFoundException;
import java.io.IOException;
import java.io.InputStreamReader;
import java.io.UnsupportedEncodingException;
import java.util.AbstractMap;
import java.util.ArrayList;
import java.util.Arrays;
import java.util.Collections;
import java.util.ConcurrentModificationException;
import java.util.EmptyStackException;
import java.util.InputMismatchException;
import java.util.LinkedHashMap;
import java.util.LinkedHashSet;
import java.util.List;
import java.util.NoSuchElementException;
import java.util.PriorityQueue;
import java.util.Random;
import java.util.Vector;

/** What the other programs leave out: further forms of methods, and the exceptions. */
public class Main {
    static void show(String what, Object value) {
        System.out.println(what + " = " + (value == null ? "null" : value.toString()));
    }

    static void show(String what, long value) {
        System.out.println(what + " = " + value);
    }

    static void show(String what, boolean value) {
        System.out.println(what + " = " + value);
    }

    /** A part of a text. */
    static class Part implements CharSequence {
        private final String text;
        private final int start;
        private final int end;

        Part(String text, int start, int end) {
            this.text = text;
            this.start = start;
            this.end = end;
        }

        public int length() {
            return end - start;
        }

        public char charAt(int index) {
            return text.charAt(start + index);
        }

        public CharSequence subSequence(int from, int to) {
            return new Part(text, start + from, start + to);
        }

        public String toString() {
            return text.substring(start, end);
        }
    }

    /** A number of one's own. */
    static class Tenth {
        final Number whole;

        Tenth(Number whole) {
            this.whole = whole;
        }
    }

    static void boxes() {
        show("Boolean", new Boolean("TRUE").booleanValue() && !new Boolean("yes").booleanValue() && Boolean.parseBoolean("True") && !Boolean.parseBoolean(null));
        show("Boolean", Boolean.toString(true) + Boolean.toString(false));
        show("Byte", new Byte((byte) 5).equals(new Byte("5")));
        show("Byte", Byte.valueOf("7f", 16).intValue() + Byte.parseByte("-12") + Byte.parseByte("11", 2) + Byte.decode("0x10"));
        show("Byte", Byte.toString((byte) -7) + Byte.hashCode((byte) 9) + Byte.compare((byte) 3, (byte) 5));
        show("Short", new Short((short) 5).equals(new Short("5")));
        show("Short", Short.valueOf("7fff", 16).intValue() + Short.parseShort("-12") + Short.parseShort("11", 2) + Short.decode("-010"));
        show("Short", Short.toString((short) -7) + Short.hashCode((short) 9) + Short.compare((short) 3, (short) 5));
        show("Integer", Integer.valueOf("12").intValue() + Integer.valueOf("zz", 36) + Integer.hashCode(5) + Integer.sum(3, 4) + Integer.max(3, 4) + Integer.min(3, 4));
        show("Integer", Integer.toString(-5) + Integer.toUnsignedLong(-1));
        show("Long", new Long(5).equals(new Long("5")));
        show("Long", Long.valueOf("12").longValue() + Long.parseLong("-zz", 36) + Long.hashCode(1L << 33) + Long.sum(3, 4) + Long.max(3, 4) + Long.min(3, 4));
        show("Long", Long.toString(-5L));
        show("Tenth", new Tenth(Integer.valueOf(77)).whole.longValue());
        String[] wrong = {"128", "-129", "x", "", "40000", "0x8000"};
        for (String text : wrong) {
            try {
                show("parseByte", Byte.parseByte(text));
            } catch (NumberFormatException e) {
                show("parseByte", e);
            }
            try {
                show("decode", Byte.decode(text));
            } catch (NumberFormatException e) {
                show("decode", e);
            }
            try {
                show("parseShort", Short.parseShort(text));
            } catch (NumberFormatException e) {
                show("parseShort", e);
            }
        }
        show("chars", Character.hashCode('a') + Character.toUpperCase((int) 'b') + Character.toLowerCase((int) 'C') + Character.digit((int) '7', 8));
        show("chars", Character.isDigit((int) '5') && Character.isLetter((int) 'x') && Character.isLetterOrDigit((int) '0') && Character.isLowerCase((int) 'x'));
        show("chars", Character.isUpperCase((int) 'X') && Character.isWhitespace((int) ' ') && !Character.isWhitespace(0xa0));
        int[] edges = {0, 5, Integer.MAX_VALUE, Integer.MIN_VALUE};
        for (int edge : edges) {
            for (int i = 0; i < 3; i++) {
                try {
                    show("exact", i == 0 ? Math.incrementExact(edge) : i == 1 ? Math.decrementExact(edge) : Math.negateExact(edge));
                } catch (ArithmeticException e) {
                    show("exact", e);
                }
            }
        }
        long[] ends = {0, 5, Long.MAX_VALUE, Long.MIN_VALUE};
        for (long end : ends) {
            for (int i = 0; i < 3; i++) {
                try {
                    show("exact", i == 0 ? Math.incrementExact(end) : i == 1 ? Math.decrementExact(end) : Math.negateExact(end));
                } catch (ArithmeticException e) {
                    show("exact", e);
                }
            }
            short narrow = (short) (end >> 7);
            show("bytes", Short.reverseBytes(narrow) + 100000L * Short.toUnsignedLong(narrow) + 10000000000L * Byte.toUnsignedLong((byte) narrow));
        }
        show("bytes", Short.reverseBytes((short) 0x12fe) + 100000L * Short.reverseBytes((short) 0xfe12));
        CharSequence part = new Part("abcdefgh", 2, 7);
        show("part", part.subSequence(1, 3).toString() + part.length() + part.charAt(0) + part.toString());
    }

    static void arrays() {
        long[] longs = {9, 3, 7, 1, 5};
        Arrays.sort(longs, 1, 4);
        show("longs", Arrays.toString(longs) + Arrays.binarySearch(longs, 1, 4, 7L));
        Arrays.fill(longs, 0, 2, 8L);
        show("longs", Arrays.toString(longs));
        short[] shorts = {9, 3, 7, 1, 5};
        Arrays.sort(shorts, 1, 4);
        show("shorts", Arrays.toString(shorts) + Arrays.binarySearch(shorts, 1, 4, (short) 7));
        Arrays.fill(shorts, 0, 2, (short) 8);
        show("shorts", Arrays.toString(shorts));
        char[] chars = {'z', 'c', 'x', 'a', 'm'};
        Arrays.sort(chars);
        show("chars", Arrays.toString(chars) + Arrays.binarySearch(chars, 'x'));
        Arrays.fill(chars, 0, 2, 'q');
        show("chars", Arrays.toString(chars));
        byte[] bytes = {9, 3, 7, 1, 5};
        Arrays.sort(bytes, 1, 4);
        show("bytes", Arrays.toString(bytes) + Arrays.binarySearch(bytes, 1, 4, (byte) 7));
        Arrays.fill(bytes, (byte) 8);
        show("bytes", Arrays.toString(bytes));
        boolean[] booleans = new boolean[4];
        Arrays.fill(booleans, 1, 3, true);
        show("booleans", Arrays.toString(booleans));
        String[] words = {"x", "b", "d", "f", "a"};
        show("search", Arrays.binarySearch(words, 1, 4, "d") + 10 * Arrays.binarySearch(words, 1, 4, "e"));
        show("search", Arrays.binarySearch(new String[] {"f", "d", "b", "z"}, 0, 3, "d", Collections.<String>reverseOrder()));
    }

    static void collections() {
        List<Integer> list = new ArrayList<Integer>(Arrays.asList(1, 2, 3, 4, 5));
        Collections.shuffle(list);
        Collections.sort(list);
        show("shuffled and sorted", list);
        int number = new Random().nextInt(10);
        show("random", 0 <= number && number < 10);
        LinkedHashMap<String, Integer> map = new LinkedHashMap<String, Integer>(2);
        LinkedHashSet<Integer> set = new LinkedHashSet<Integer>(2);
        for (int i = 9; i > 0; i--) {
            map.put("k" + i, i);
            set.add(i);
        }
        show("map", map);
        show("set", set);
        PriorityQueue<Integer> queue = new PriorityQueue<Integer>(2);
        queue.addAll(list);
        PriorityQueue<Integer> down = new PriorityQueue<Integer>(Collections.<Integer>reverseOrder());
        down.addAll(list);
        show("queues", queue.peek() + 10 * down.peek());
        try {
            new PriorityQueue<Integer>(0);
        } catch (IllegalArgumentException e) {
            show("queue", e);
        }
        Vector<Integer> vector = new Vector<Integer>(list);
        show("vector", vector.toString() + new Vector<Integer>(3).capacity() + vector.capacity());
        AbstractMap.SimpleImmutableEntry<String, Integer> fixed = new AbstractMap.SimpleImmutableEntry<String, Integer>("k", 1);
        show("entries", fixed.equals(new AbstractMap.SimpleEntry<String, Integer>(fixed)) && fixed.getKey().equals("k"));
    }

    static void throwables() {
        Throwable[] all = {
            new NumberFormatException(), new NumberFormatException("a"), new SecurityException("b"), new IllegalMonitorStateException("c"),
            new IllegalThreadStateException("d"), new ReflectiveOperationException("e"), new ClassNotFoundException("f"), new InstantiationException("g"),
            new IllegalAccessException("h"), new NoSuchFieldException("i"), new NoSuchMethodException("j"), new InterruptedException("k"),
            new InternalError("l"), new OutOfMemoryError("m"), new StackOverflowError("n"), new UnknownError("o"), new NoClassDefFoundError("p"),
            new ClassFormatError("q"), new ClassCircularityError("r"), new UnsupportedClassVersionError("s"), new UnsatisfiedLinkError("t"), new VerifyError("u"),
            new AbstractMethodError("v"), new IllegalAccessError("w"), new InstantiationError("x"), new NoSuchFieldError("y"), new NoSuchMethodError("z"),
            new AssertionError(), new AssertionError("text"), new AssertionError(5), new AssertionError('c'), new AssertionError(7L), new AssertionError(true),
            new AssertionError(null), new NoSuchElementException(), new NoSuchElementException("1"), new InputMismatchException("2"),
            new ConcurrentModificationException("3"), new EmptyStackException(), new IOException("4"), new EOFException("5"), new FileNotFoundException("6"),
            new UnsupportedEncodingException("7"),
        };
        for (Throwable each : all) {
            try {
                throw each;
            } catch (VirtualMachineError e) {
                show("machine", e);
            } catch (IncompatibleClassChangeError e) {
                show("change", e);
            } catch (LinkageError e) {
                show("linkage", e);
            } catch (Error e) {
                show("error", e);
            } catch (ReflectiveOperationException e) {
                show("reflection", e);
            } catch (IllegalArgumentException e) {
                show("argument", e);
            } catch (NoSuchElementException e) {
                show("element", e);
            } catch (RuntimeException e) {
                show("runtime", e);
            } catch (IOException e) {
                show("io", e);
            } catch (Throwable e) {
                show("other", e);
            }
        }
        try {
            new InputStreamReader(System.in, "no-such-charset");
        } catch (UnsupportedEncodingException e) {
            show("charset", e);
        }
        try {
            show("utf-8", new InputStreamReader(System.in, "UTF-8").read());
        } catch (IOException e) {
            show("utf-8", e);
        }
    }

    public static void main(String[] args) {
        boxes();
        arrays();
        collections();
        throwables();
    }
}
