import java.util.Arrays;

/** Formats and regular expressions: each conversion with its flags, each fault, and parts of texts with ordinary and edge arguments. */
public class Main {
    private static void show(String format, Object... arguments) {
        String text;
        try {
            text = String.format(format, arguments);
        } catch (IllegalArgumentException e) {
            text = e.toString();
        }
        System.out.println(format + " -> [" + text + "]");
    }

    private static void numbers() {
        Object[] values = {0, 7, -42, 1234567, Integer.MIN_VALUE, 99999999999L, Long.MIN_VALUE, (byte) -1, (short) -300};
        String[] formats = {"%d", "%+d", "% d", "%(d", "%,d", "%12d", "%-12d|", "%012d", "%+,012d", "%(,14d", "%(015d", "%x", "%X", "%#x", "%#012X", "%o", "%#o", "%-14x|"};
        for (String format : formats) {
            for (Object value : values) {
                System.out.print(String.format(format, value) + " ");
            }
            System.out.println(format);
        }
    }

    private static void others() {
        show("%s %S %10s %-10s| %.2s %8.3s %s", "text", "text", "text", "text", "text", "text", null);
        show("%b %B %b %b %6b %.1b", true, false, null, "x", true, false);
        show("%c %C %c %3c %-3c| %c %c", 'x', 'x', 65, 'y', 'z', (byte) 66, null);
        show("%h %H %h", "hi", "hi", null);
        show("100%% %5%|%-5%|%n%d", 1);
        show("%2$s %1$s %<s %s %s %3$s", "a", "b", "c");
        show("plain");
        show("");
        show("%s", Arrays.asList(1, 2));
        show("%s %s", 'c', 7L);
        show("%d", (Object) null);
        show("more arguments than %d", 1, 2, 3);
    }

    private static void faults() {
        String[] formats = {"%", "%y", "%5", "%-d", "%0d", "%-05d", "%+ d", "%--5d", "%#d", "%,x", "%+x", "%.2d", "%.1c", "%#c", "%+s", "%#s", "%-s", "%5n", "%-n", "%+%", "%.d", "%d %d", "%3$s", "%<s", "%-%", "a %q", "%#b"};
        for (String format : formats) {
            show(format, 1);
        }
        show("%d", "text");
        show("%d", 'c');
        show("%x", true);
        show("%c", "text");
        show("%c", -1);
        show("%c", true);
        show("%f", 1);
        show("%d");
    }

    private static void printing() {
        System.out.printf("%s and %d%n", "one", 2).printf("%03d", 7).format("%n").append('c').append("text").append(null).println();
        try {
            System.out.printf("before %s %d after", "x", "y");
        } catch (IllegalArgumentException e) {
            System.out.println("! " + e.getMessage());
        }
    }

    private static void patterns() {
        String[] patterns = {"\\s+", " ", ", *", "[,;]", "[^a-z]+", "\\d", "a", "a*", ".", "x?", "\\.", "[-+]", "\\w+", "\\W", "es", "", "[a-c][0-9]?"};
        String[] texts = {"", "a", "one two  three", "a, b;c,,", "x=1;y=22", "a.b.c", "1+2-3", " es test es", "aaa"};
        for (String pattern : patterns) {
            System.out.println("/" + pattern + "/");
            for (String text : texts) {
                System.out.println("  " + Arrays.toString(text.split(pattern)) + " " + Arrays.toString(text.split(pattern, 2)) + " " + text.split(pattern, -1).length
                        + " " + text.matches(pattern) + " " + text.replaceAll(pattern, "<$0>") + " " + text.replaceFirst(pattern, "\\$"));
            }
        }
        try {
            "a".replaceAll("a", "$1");
        } catch (IndexOutOfBoundsException e) {
            System.out.println(e.getMessage());
        }
    }

    public static void main(String[] args) {
        numbers();
        others();
        faults();
        printing();
        patterns();
        try {
            throw new Exception("kept");
        } catch (Exception e) {
            e.addSuppressed(new Exception("other"));
            System.out.println(e.fillInStackTrace() == e);
        }
    }
}
