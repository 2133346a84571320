/** What builders say of their units, lengths that are set, and texts of arrays of chars, at ordinary arguments and at the edges. */
public class Main {
    static int line;

    static StringBuilder begun() {
        return new StringBuilder().append(++line).append(' ');
    }

    static void say(String text) {
        System.out.println(begun().append(text).toString());
    }

    static void say(String what, int number) {
        System.out.println(begun().append(what).append(' ').append(number).toString());
    }

    /** The units by their numbers. */
    static String numbers(String text) {
        StringBuilder all = new StringBuilder();
        for (int i = 0; i < text.length(); i++) {
            all.append((int) text.charAt(i)).append(' ');
        }
        return all.append('|').toString();
    }

    static String caught(int which) {
        StringBuilder empty = new StringBuilder();
        StringBuilder text = new StringBuilder().append("text");
        StringBuffer buffer = new StringBuffer("text");
        StringBuilder none = null;
        StringBuffer no_buffer = null;
        char[] chars = null;
        try {
            switch (which) {
                case 0: return String.valueOf(empty.charAt(0));
                case 1: return String.valueOf(empty.charAt(-1));
                case 2: return String.valueOf(text.charAt(-1));
                case 3: return String.valueOf(text.charAt(4));
                case 4: return String.valueOf(text.charAt(2147483647));
                case 5: return String.valueOf(text.charAt(-2147483648));
                case 6: return String.valueOf(buffer.charAt(4));
                case 7: return String.valueOf(none.charAt(0));
                case 8: return String.valueOf(no_buffer.charAt(0));
                case 9: text.setLength(-1); return text.toString();
                case 10: empty.setLength(-2147483648); return empty.toString();
                case 11: buffer.setLength(-1); return buffer.toString();
                case 12: none.setLength(1); return "";
                case 13: return String.valueOf(chars);
                default: return String.valueOf(text.charAt(3));
            }
        } catch (StringIndexOutOfBoundsException e) {
            return "outside";
        } catch (IndexOutOfBoundsException e) {
            return "outside";
        } catch (NullPointerException e) {
            return "null";
        }
    }

    static void builders() {
        StringBuilder text = new StringBuilder();
        text.setLength(0);
        say("empty", text.length());
        text.setLength(3);
        say(numbers(text.toString()));
        say("zero", text.charAt(2));
        text.append("abc\u20ac\uffff");
        for (int i = 0; i < text.length(); i++) {
            say("unit", text.charAt(i));
        }
        text.setLength(text.length());
        say(numbers(text.toString()));
        String before = text.toString();
        text.setLength(5);
        say(numbers(text.toString()));
        say(numbers(before));
        text.append('x').setLength(8);
        say(numbers(text.toString()));
        text.setLength(0);
        say(text.append("again").toString());
        say("equal texts", text.toString().equals("again") ? 1 : 0);
    }

    static void buffers() {
        StringBuffer text = new StringBuffer("begun");
        say("unit", text.charAt(0));
        say("unit", text.charAt(4));
        text.setLength(2);
        say(text.toString());
        text.setLength(4);
        say(numbers(text.append('n').toString()));
        say("length", text.length());
    }

    static void chars() {
        char[] chars = { 'a', '\u0000', '\u20ac', '\uffff', 'z' };
        String text = String.valueOf(chars);
        say(numbers(text));
        chars[0] = 'b';
        say(numbers(text));
        say(numbers(String.valueOf(chars)));
        say(numbers(String.valueOf(new char[0])));
        say(numbers(String.valueOf(new char[3])));
        say("same texts", String.valueOf(chars) == String.valueOf(chars) ? 1 : 0);
        say("equal texts", String.valueOf(chars).equals(String.valueOf(chars)) ? 1 : 0);
        say("hash", String.valueOf(chars).hashCode());
        Object object = chars;
        say(object.equals(String.valueOf(chars)) ? "equal" : "other");
        say(String.valueOf(chars).equals(object) ? "equal" : "other");
        StringBuilder many = new StringBuilder();
        for (int i = 0; i < 100; i++) {
            many.append(String.valueOf(new char[] { (char) ('a' + i % 26) }));
        }
        say(many.toString());
    }

    static void classes() {
        try {
            throw new CloneNotSupportedException("no copy");
        } catch (CloneNotSupportedException e) {
            say(e.getMessage());
        }
        Throwable none = new CloneNotSupportedException();
        say(none.toString());
        say(none instanceof Exception ? "exception" : "other");
        say(none instanceof RuntimeException ? "runtime" : "other");
    }

    public static void main(String[] args) {
        builders();
        buffers();
        chars();
        for (int i = 0; i < 15; i++) {
            say(caught(i));
        }
        classes();
    }
}
