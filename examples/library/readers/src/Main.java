import java.io.BufferedReader;
import java.io.IOException;
import java.io.InputStreamReader;
import java.io.Reader;
import java.io.StringReader;
import java.util.InputMismatchException;
import java.util.NoSuchElementException;
import java.util.Scanner;

/** Each method of Scanner, BufferedReader, InputStreamReader and StringReader, with ordinary and edge arguments. */
public class Main {
    static void show(String what, Object value) {
        System.out.println(what + " = " + (value == null ? "null" : value.toString()));
    }

    static void show(String what, long value) {
        System.out.println(what + " = " + value);
    }

    static void show(String what, boolean value) {
        System.out.println(what + " = " + value);
    }

    static void words(String text) {
        Scanner scanner = new Scanner(text);
        while (scanner.hasNext()) {
            if (scanner.hasNextInt()) {
                show("int", scanner.nextInt());
            } else if (scanner.hasNextLong()) {
                show("long", scanner.nextLong());
            } else if (scanner.hasNextBoolean()) {
                show("boolean", scanner.nextBoolean());
            } else {
                show("word", scanner.next());
            }
        }
        for (int i = 0; i < 4; i++) {
            try {
                switch (i) {
                    case 0: scanner.next(); break;
                    case 1: scanner.nextInt(); break;
                    case 2: scanner.nextBoolean(); break;
                    default: scanner.nextLong();
                }
            } catch (NoSuchElementException e) {
                show("end", e);
            }
        }
        scanner.close();
        try {
            scanner.hasNext();
        } catch (IllegalStateException e) {
            show("closed", e);
        }
    }

    static void mixed() {
        Scanner scanner = new Scanner("12 abc\n  rest of line \n\nff 99999999999 last");
        show("int", scanner.nextInt());
        try {
            scanner.nextInt();
        } catch (InputMismatchException e) {
            show("mismatch", "InputMismatchException");
        }
        show("word", scanner.next());
        show("line", scanner.nextLine() + "|");
        show("line", scanner.nextLine() + "|");
        show("line", scanner.nextLine() + "|");
        show("hex", scanner.hasNextInt(16) ? scanner.nextInt(16) : -1);
        try {
            scanner.nextInt();
        } catch (InputMismatchException e) {
            show("mismatch", "InputMismatchException");
        }
        show("long", scanner.nextLong());
        show("line", scanner.hasNextLine() ? scanner.nextLine() : null);
        show("more", scanner.hasNextLine() || scanner.hasNext() || scanner.hasNextInt());
        try {
            scanner.nextLine();
        } catch (NoSuchElementException e) {
            show("end", e);
        }
    }

    static void readers() throws IOException {
        BufferedReader lines = new BufferedReader(new StringReader("one\ntwo\r\nthree\rfour\n\nend"));
        for (String line = lines.readLine(); line != null; line = lines.readLine()) {
            show("line", line);
        }
        show("line", lines.readLine());
        show("read", lines.read());
        lines.close();
        try {
            lines.readLine();
        } catch (IOException e) {
            show("closed", e);
        }
        Reader chars = new BufferedReader(new StringReader("abcdefgh"), 4);
        char[] room = new char[5];
        show("read", chars.read());
        show("read", chars.read(room));
        show("chars", room[0] + room[4]);
        show("skip", chars.skip(1));
        show("read", chars.read(room, 2, 3));
        show("read", chars.read(room, 0, 1));
        Reader text = new StringReader("xyz");
        show("ready", text.ready());
        show("read", text.read() + 1000 * text.read(room, 0, 5) + 1000000 * text.read());
        show("end", text.read(room));
        text.close();
        try {
            text.read();
        } catch (IOException e) {
            show("closed", e);
        }
    }

    public static void main(String[] args) throws IOException {
        words("");
        words("1 -2 +3 2147483648 -2147483649 9223372036854775808 true FALSE maybe 1x x1 - +");
        words("  spaced\tout\n lines \r\n");
        mixed();
        readers();
        BufferedReader input = new BufferedReader(new InputStreamReader(System.in));
        show("first", input.readLine());
        show("ready", input.ready());
        show("char", input.read());
        String line;
        int count = 0;
        long hash = 0;
        while ((line = input.readLine()) != null) {
            count++;
            hash = 31 * hash + line.hashCode();
        }
        show("lines", count);
        show("hash", hash);
        show("ready", input.ready());
    }
}
