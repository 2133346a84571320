import java.util.ArrayList;
import java.util.List;

/** What class files of the library add to built-in classes: each method once, with ordinary and edge arguments. */
public class Main {
    private static final class Trouble extends Exception {
        Trouble(String message, Throwable cause) {
            super(message, cause);
        }
    }

    public static void main(String[] args) {
        builders();
        texts();
        searches();
        changes();
        splits();
        copies();
        causes();
    }

    private static void builders() {
        List<Integer> numbers = new ArrayList<Integer>();
        numbers.add(1);
        numbers.add(2);
        Object nothing = null;
        StringBuilder text = new StringBuilder("a").append(numbers).append(nothing).append(new char[] {'x', 'y'});
        text.append("abcdef", 2, 4).append(new StringBuffer("b")).append(new char[] {'p', 'q', 'r'}, 1, 2);
        CharSequence sequence = text;
        text.append(sequence);
        System.out.println(text);
        System.out.println(text.charAt(1) + " " + text.indexOf("nul") + " " + text.indexOf("nul", 9) + " " + text.lastIndexOf("nul"));
        System.out.println(text.substring(20) + " " + text.substring(1, 3) + " " + text.subSequence(2, 4));
        System.out.println(new StringBuilder(16).length() + " " + sequence.length());
        System.out.println(new StringBuffer().append(numbers).append('c').charAt(1));
        try {
            new StringBuilder().charAt(0);
        } catch (IndexOutOfBoundsException e) {
            System.out.println("no char");
        }
    }

    private static void texts() {
        System.out.println(String.valueOf((Object) null) + String.valueOf(new char[] {'o', 'k'}) + String.valueOf(new char[] {'o', 'k'}, 1, 1));
        System.out.println(String.join("-", "a", "b", "c") + String.join("-"));
        Comparable<String> order = "b";
        CharSequence sequence = "text";
        System.out.println((order.compareTo("a") > 0) + " " + sequence.length() + sequence.charAt(1) + sequence.subSequence(1, 3));
        System.out.println("".isEmpty() + " " + "a".isEmpty() + " " + "text".substring(2) + "text".substring(4) + ".");
        System.out.println("text".contentEquals(new StringBuilder("text")));
        System.out.print(new char[] {'h', 'i'});
        System.out.print(' ');
        System.out.print((Object) "there");
        System.out.println(new char[] {'!'});
        System.out.flush();
    }

    private static void searches() {
        String text = "banana";
        System.out.println(text.indexOf('n') + " " + text.indexOf('n', 3) + " " + text.indexOf('x') + " " + text.indexOf('b', -5));
        System.out.println(text.lastIndexOf('n') + " " + text.lastIndexOf('n', 3) + " " + text.lastIndexOf('x') + " " + text.lastIndexOf('b', 99));
        System.out.println(text.indexOf("an") + " " + text.indexOf("an", 2) + " " + text.indexOf("nab") + " " + text.indexOf("") + text.indexOf("", 9));
        System.out.println(text.lastIndexOf("an") + " " + text.lastIndexOf("an", 2) + " " + text.lastIndexOf("nab") + " " + text.lastIndexOf(""));
        System.out.println(text.contains("nan") + " " + text.contains("nab") + " " + text.startsWith("ban") + " " + text.startsWith("an", 1));
        System.out.println(text.startsWith("bananas") + " " + text.endsWith("ana") + " " + text.endsWith("") + " " + text.startsWith("a", -1));
        System.out.println("Text".equalsIgnoreCase("tEXT") + " " + "Text".equalsIgnoreCase(null) + " " + ("a".compareToIgnoreCase("B") < 0));
    }

    private static void changes() {
        System.out.println("banana".replace('a', 'o') + " " + "banana".replace('x', 'o') + " " + "banana".replace("an", "en"));
        System.out.println("abc".replace("", "-") + " " + "aaa".replace("aa", "b") + " " + "abc".replace("c", ""));
        System.out.println("[" + "  a b ".trim() + "][" + "   ".trim() + "][" + "ab".trim() + "]");
        System.out.println("Mixed Case 12".toLowerCase() + " " + "Mixed Case 12".toUpperCase() + " " + "a".concat("b").concat(""));
        char[] chars = "chars".toCharArray();
        "xyz".getChars(1, 3, chars, 2);
        System.out.println(chars.length + String.copyValueOf(chars));
    }

    private static void splits() {
        String[] texts = {"a,b,,c,,", ",a", "abc", "", ",", "a b"};
        for (String text : texts) {
            String[] parts = text.split(",");
            System.out.print(parts.length);
            for (String part : parts) {
                System.out.print("[" + part + "]");
            }
            System.out.println();
        }
        System.out.println("1.2.3".split("\\.").length);
    }

    private static void copies() {
        int[] numbers = {1, 2, 3, 4, 5};
        System.arraycopy(numbers, 0, numbers, 1, 4);
        System.arraycopy(numbers, 2, numbers, 0, 3);
        for (int number : numbers) {
            System.out.print(number);
        }
        System.out.println();
        Object[] objects = {"a", 1, "c"};
        String[] texts = new String[3];
        try {
            System.arraycopy(objects, 0, texts, 0, 3);
        } catch (ArrayStoreException e) {
            System.out.println(texts[0] + texts[1]);
        }
        try {
            System.arraycopy(numbers, 3, numbers, 0, 3);
        } catch (IndexOutOfBoundsException e) {
            System.out.println("outside");
        }
        try {
            System.arraycopy(numbers, 0, new long[5], 0, 1);
        } catch (ArrayStoreException e) {
            System.out.println("other kind");
        }
        System.out.print(System.lineSeparator());
    }

    private static void causes() {
        try {
            try {
                System.out.println(10 / numberOf(""));
            } catch (ArithmeticException e) {
                throw new Trouble("no quotient", e);
            }
        } catch (Trouble e) {
            System.out.println(e.getMessage() + " " + (e.getCause() instanceof ArithmeticException) + " " + e.getLocalizedMessage());
        }
        RuntimeException inner = new IllegalStateException("inner");
        RuntimeException outer = new RuntimeException(inner);
        System.out.println(outer.getMessage() + " " + (outer.getCause() == inner) + " " + inner.getCause());
        Throwable error = new Error("e").initCause(outer);
        System.out.println(error.getCause() == outer);
        System.out.println(error);
    }

    private static int numberOf(String text) {
        return text.length();
    }
}
