/** Copies of arrays and of objects: what is shared with the copied one, and what is not. */
public class Main {
    static int line;

    static void say(String what, String text) {
        System.out.println(new StringBuilder().append(++line).append(' ').append(what).append(": ").append(text).toString());
    }

    static void say(String what, boolean truth) {
        say(what, truth ? "yes" : "no");
    }

    static void say(String what, int number) {
        say(what, new StringBuilder().append(number).toString());
    }

    static String text(int[] numbers) {
        StringBuilder all = new StringBuilder();
        for (int i = 0; i < numbers.length; i++) {
            all.append(numbers[i]).append(' ');
        }
        return all.append('|').toString();
    }

    static String text(String[] texts) {
        StringBuilder all = new StringBuilder();
        for (int i = 0; i < texts.length; i++) {
            all.append(texts[i]).append(' ');
        }
        return all.append('|').toString();
    }

    static void numbers() {
        int[] old = {3, 1, -4, 1 << 31, 5};
        int[] copy = (int[]) old.clone();
        say("copied", text(copy));
        say("the same array", old == copy);
        copy[0] = 7;
        old[1] = 9;
        say("the old one", text(old));
        say("the copy", text(copy));
        say("an empty one", ((int[]) new int[0].clone()).length);

        long[] longs = {1L << 62, -1L, 0L};
        long[] others = (long[]) longs.clone();
        longs[0] = 2;
        say("longs", new StringBuilder().append(others[0]).append(' ').append(others[1]).append(' ').append(longs[0]).toString());

        char[] chars = {'a', '\u20ac', '\uffff'};
        char[] units = (char[]) chars.clone();
        chars[1] = 'b';
        say("chars", new StringBuilder().append((int) units[0]).append(' ').append((int) units[1]).append(' ').append((int) units[2]).toString());

        byte[] bytes = {-128, 127, 0, 1, 2, 3, 4, 5, 6};
        byte[] few = (byte[]) bytes.clone();
        bytes[8] = 60;
        say("bytes", few[0] + few[1] + few[8]);

        short[] shorts = {-32768, 32767, 12};
        short[] some = (short[]) shorts.clone();
        say("shorts", some[0] + some[1] * 2 + some.length);

        boolean[] truths = {true, false, true};
        boolean[] answers = (boolean[]) truths.clone();
        truths[0] = false;
        say("truths", answers[0] & !answers[1] & answers[2]);
    }

    static void references() {
        String[] old = {"one", "two", null};
        String[] copy = (String[]) old.clone();
        say("texts", text(copy));
        say("the same text", old[1] == copy[1]);
        copy[1] = "three";
        say("the old one", text(old));

        Object object = old;
        Object other = ((String[]) object).clone();
        say("an array of texts", other instanceof String[]);
        say("an array of objects", other instanceof Object[]);
        say("an array of ints", other instanceof int[]);
        say("may be copied", other instanceof Cloneable);
        Object[] objects = (Object[]) ((Object[]) object).clone();
        try {
            objects[0] = new Object();
            say("stored", "an object");
        } catch (ArrayStoreException e) {
            say("stored", "nothing but texts");
        }
    }

    static void nested() {
        int[][] old = {{1, 2}, {3, 4, 5}, null};
        int[][] copy = (int[][]) old.clone();
        say("the outer arrays are the same", old == copy);
        say("the inner arrays are the same", old[0] == copy[0] && old[1] == copy[1]);
        copy[0][1] = 20;
        copy[1] = (int[]) copy[1].clone();
        copy[1][0] = 30;
        copy[2] = new int[] {6};
        say("old, first", text(old[0]));
        say("old, second", text(old[1]));
        say("old, third", old[2] == null ? "null" : text(old[2]));
        say("copy, first", text(copy[0]));
        say("copy, second", text(copy[1]));
        say("copy, third", text(copy[2]));
    }

    static void objects() {
        Node end = new Node(1, "end", null);
        Node old = new Node(2, "start", end);
        Node copy = old.copy();
        say("the same object", old == copy);
        say("the copy", copy.text());
        say("the same next one", old.next == copy.next);
        copy.number = 7;
        copy.name = "copied";
        say("the old one", old.text());
        say("the copy", copy.text());
        copy.next.number = 8;
        say("the old one", old.text());

        Node deep = new Named(3, "named", old, 1L << 40).copy();
        say("the class stays", deep instanceof Named);
        say("the long stays", ((Named) deep).weight == 1L << 40);
        say("its text", deep.text());
        Node all = deep.deep();
        deep.next.next.number = 100;
        say("a deep copy", all.text());
        say("the copied one", deep.text());
        say("equal", all.equals(deep));
        say("equal to itself", all.equals(all));
    }

    static void refused() {
        say("of no class that may be copied", new Plain().attempt());
        say("and of one below that may", new Fancy().attempt());
        int[] none = null;
        try {
            none.clone();
            say("of null", "a copy");
        } catch (NullPointerException e) {
            say("of null", "none");
        }
        try {
            new Plain().twice();
            say("thrown on", "nothing");
        } catch (CloneNotSupportedException e) {
            say("thrown on", e.getMessage() == null || e.getMessage().equals("Plain") ? "not supported" : "another message");
        }
    }

    static void many() {
        int[] numbers = new int[1000];
        for (int i = 0; i < numbers.length; i++) {
            numbers[i] = i * i;
        }
        int sum = 0;
        for (int round = 0; round < 20; round++) {
            numbers = (int[]) numbers.clone();
            numbers[round] = -1;
            sum += numbers[999 - round];
        }
        say("many copies", sum);
        say("their start", numbers[19] + numbers[20]);
    }

    public static void main(String[] args) {
        numbers();
        references();
        nested();
        objects();
        refused();
        many();
    }
}

/** A list of numbers with names. */
class Node implements Cloneable {
    int number;
    String name;
    Node next;

    Node(int number, String name, Node next) {
        this.number = number;
        this.name = name;
        this.next = next;
    }

    Node copy() {
        try {
            return (Node) super.clone();
        } catch (CloneNotSupportedException e) {
            return null;
        }
    }

    Node deep() {
        Node copy = copy();
        if (next != null) {
            copy.next = next.deep();
        }
        return copy;
    }

    String text() {
        StringBuilder all = new StringBuilder().append(number).append(' ').append(name);
        return next == null ? all.toString() : all.append(", ").append(next.text()).toString();
    }
}

/** One that is heavier. */
class Named extends Node {
    final long weight;

    Named(int number, String name, Node next, long weight) {
        super(number, name, next);
        this.weight = weight;
    }
}

/** Of this there are no copies. */
class Plain {
    int number = 5;

    Object twice() throws CloneNotSupportedException {
        return super.clone();
    }

    String attempt() {
        try {
            Plain copy = (Plain) twice();
            return copy == this ? "itself" : new StringBuilder().append("a copy ").append(copy.number).toString();
        } catch (CloneNotSupportedException e) {
            return "none";
        }
    }
}

/** Of this there are. */
class Fancy extends Plain implements Cloneable {
}
