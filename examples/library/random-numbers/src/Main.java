import java.util.Random;

/** Random texts read as numbers of each kind, with the messages of what isn't one. */
public class Main {
    private static final String LETTERS = "0011122789-+#xXaFfzL_ .";

    static String text(Random random) {
        StringBuilder text = new StringBuilder();
        if (random.nextInt(3) == 0) {
            text.append(random.nextBoolean() ? "-" : random.nextBoolean() ? "0x" : "2147483");
        }
        for (int i = random.nextInt(random.nextInt(4) == 0 ? 20 : 5); i > 0; i--) {
            text.append(LETTERS.charAt(random.nextInt(random.nextInt(3) == 0 ? LETTERS.length() : 10)));
        }
        return text.toString();
    }

    static String read(String text, int kind, int radix) {
        switch (kind) {
            case 0:
                return "" + Integer.parseInt(text);
            case 1:
                return "" + Integer.parseInt(text, radix);
            case 2:
                return Integer.decode(text).toString();
            case 3:
                return "" + Long.parseLong(text);
            case 4:
                return "" + Long.parseLong(text, radix);
            case 5:
                return Long.decode(text).toString();
            case 6:
                return "" + Short.parseShort(text, radix);
            case 7:
                return Short.decode(text).toString();
            case 8:
                return "" + Byte.parseByte(text, radix);
            case 9:
                return Byte.decode(text).toString();
            case 10:
                return new Integer(text).toString();
            default:
                return Long.valueOf(text, radix).toString();
        }
    }

    static void hash(char from, int count) {
        long sum = 0;
        for (int i = 0; i < count; i++) {
            char c = (char) (from + i);
            int bits = (Character.isDigit(c) ? 1 : 0) + (Character.isLetter(c) ? 2 : 0) + (Character.isLetterOrDigit(c) ? 4 : 0) + (Character.isLowerCase(c) ? 8 : 0)
                + (Character.isUpperCase(c) ? 16 : 0) + (Character.isWhitespace(c) ? 32 : 0) + (Character.isSpaceChar(c) ? 64 : 0) + (Character.isISOControl(c) ? 128 : 0)
                + (Character.isJavaIdentifierStart(c) ? 256 : 0) + (Character.isJavaIdentifierPart(c) ? 512 : 0) + (Character.isAlphabetic(c) ? 1024 : 0);
            System.out.println((int) c + " " + bits + " " + (int) Character.toUpperCase(c) + " " + (int) Character.toLowerCase(c) + " " + Character.digit(c, 36) + " "
                + Character.getNumericValue(c) + " " + Character.isSurrogate(c));
        }
    }

    public static void main(String[] args) {
        Random random = new Random(123);
        for (int i = 0; i < 2500; i++) {
            String text = text(random);
            int kind = random.nextInt(12);
            int radix = random.nextInt(5) == 0 ? random.nextInt(40) : 10 + 6 * random.nextInt(2);
            try {
                System.out.println(kind + "," + radix + ": " + read(text, kind, radix));
            } catch (NumberFormatException e) {
                System.out.println(kind + "," + radix + ": " + e.getMessage());
            }
        }
        hash('\0', 256);
        for (int radix = -1; radix < 40; radix += 2) {
            System.out.println(Integer.toString(-123456, radix) + " " + Long.toString(987654321012L, radix) + " " + Character.forDigit(11, radix) + Character.digit('b', radix));
        }
    }
}
