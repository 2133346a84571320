import java.io.BufferedReader;
import java.io.IOException;
import java.io.InputStreamReader;
import java.io.StringReader;
import java.util.NoSuchElementException;
import java.util.Random;
import java.util.Scanner;
import java.util.StringTokenizer;

/** Random steps on scanners, readers and tokenizers of random texts. */
public class Main {
    private static final String[] PIECES = {
        "12", "-7", "+5", "2147483647", "2147483648", "-2147483648", "99999999999", "9223372036854775808", "0x1f", "ff", "zz", "true", "FALSE", "yes", "a", "-", "+",
        "007", "1.5", "\u00e9", " ", "  ", "\t", "\n", "\r\n", "\r", "\n\n", " \n ", "\f", ",", ";", "12a",
    };

    static String text(Random random) {
        StringBuilder text = new StringBuilder();
        for (int i = random.nextInt(8); i > 0; i--) {
            text.append(PIECES[random.nextInt(PIECES.length)]);
            if (random.nextInt(3) > 0) {
                text.append(random.nextInt(4) == 0 ? '\n' : ' ');
            }
        }
        return text.toString();
    }

    static String escaped(String text) {
        StringBuilder escaped = new StringBuilder();
        for (int i = 0; i < text.length(); i++) {
            char c = text.charAt(i);
            if (c < ' ' || c > '~') {
                escaped.append('<').append((int) c).append('>');
            } else {
                escaped.append(c);
            }
        }
        return escaped.toString();
    }

    static String step(Scanner scanner, int kind) {
        switch (kind) {
            case 0:
                return "" + scanner.hasNext();
            case 1:
                return "" + scanner.hasNextInt();
            case 2:
                return "" + scanner.hasNextLine();
            case 3:
                return "" + scanner.hasNextLong();
            case 4:
                return "" + scanner.hasNextBoolean();
            case 5:
                return "" + scanner.nextInt();
            case 6:
                return "" + scanner.nextLong();
            case 7:
                return "" + scanner.nextBoolean();
            case 8:
                return scanner.nextLine();
            case 9:
                return "" + scanner.hasNextInt(16);
            case 10:
                return "" + scanner.nextInt(16);
            default:
                return scanner.next();
        }
    }

    static void scan(Random random) {
        String text = text(random);
        System.out.println("[" + escaped(text) + "]");
        Scanner scanner = new Scanner(text);
        StringBuilder line = new StringBuilder();
        for (int i = 0; i < 10; i++) {
            int kind = random.nextInt(13);
            line.append(' ').append(kind).append(':');
            try {
                line.append(escaped(step(scanner, kind)));
            } catch (NoSuchElementException e) {
                line.append(e.toString());
            }
        }
        System.out.println(line.toString());
    }

    static void read(Random random) throws IOException {
        String text = text(random);
        BufferedReader reader = new BufferedReader(new StringReader(text), 1 + random.nextInt(5));
        StringBuilder line = new StringBuilder();
        char[] chars = new char[6];
        for (int i = 0; i < 8; i++) {
            switch (random.nextInt(4)) {
                case 0:
                    line.append(reader.read());
                    break;
                case 1:
                    int count = reader.read(chars, 1, 1 + random.nextInt(5));
                    line.append(count).append(':');
                    for (int k = 0; k < count; k++) {
                        line.append((int) chars[1 + k]).append('.');
                    }
                    break;
                default:
                    String next = reader.readLine();
                    line.append(next == null ? "end" : escaped(next));
            }
            line.append('|');
        }
        System.out.println(line.toString());
    }

    static void tokens(Random random) {
        String text = text(random);
        StringTokenizer tokens = new StringTokenizer(text, random.nextBoolean() ? " \n\t" : ",;1", random.nextInt(3) == 0);
        StringBuilder line = new StringBuilder();
        for (int i = 0; i < 6; i++) {
            try {
                switch (random.nextInt(4)) {
                    case 0:
                        line.append(tokens.countTokens());
                        break;
                    case 1:
                        line.append(tokens.hasMoreTokens());
                        break;
                    case 2:
                        line.append(escaped(tokens.nextToken("f ")));
                        break;
                    default:
                        line.append(escaped(tokens.nextToken()));
                }
            } catch (NoSuchElementException e) {
                line.append(e.toString());
            }
            line.append('|');
        }
        System.out.println(line.toString());
    }

    public static void main(String[] args) throws IOException {
        Random random = new Random(77);
        for (int i = 0; i < 300; i++) {
            scan(random);
            read(random);
            tokens(random);
        }
    }
}
