/** What the program `boxes` leaves out: constructors of the boxes, numbers of bases, code points, and sums that overflow. */
public class Main {
    static final String[] TEXTS = {"0", "-0", "+7", "127", "128", "-128", "-129", "32767", "32768", "-32769", "99999", "", "-", "+", " 1", "1 ", "0x10", "7f", "-80", "1L", "zz"};

    static void parse(String text) {
        StringBuilder line = new StringBuilder().append('"').append(text).append("\":");
        for (int radix = 10; radix <= 16; radix += 6) {
            try {
                line.append(' ').append(Byte.parseByte(text, radix)).append(' ').append(Byte.valueOf(text, radix).toString());
            } catch (NumberFormatException e) {
                line.append(" [").append(e.getMessage()).append(']');
            }
            try {
                line.append(' ').append(Short.parseShort(text, radix)).append(' ').append(Short.valueOf(text, radix).toString());
            } catch (NumberFormatException e) {
                line.append(" [").append(e.getMessage()).append(']');
            }
            try {
                line.append(' ').append(Integer.valueOf(text, radix).toString()).append(' ').append(Long.parseLong(text, radix));
            } catch (NumberFormatException e) {
                line.append(" [").append(e.getMessage()).append(']');
            }
        }
        System.out.println(line.toString());
        try {
            System.out.println("  " + Byte.parseByte(text) + " " + new Byte(text).toString() + " " + Byte.decode(text).toString());
        } catch (NumberFormatException e) {
            System.out.println("  " + e.getMessage());
        }
        try {
            System.out.println("  " + Short.parseShort(text) + " " + new Short(text).toString() + " " + Short.decode(text).toString());
        } catch (NumberFormatException e) {
            System.out.println("  " + e.getMessage());
        }
        try {
            System.out.println("  " + Long.valueOf(text).toString() + " " + new Long(text).toString() + " " + new Integer(text).toString());
        } catch (NumberFormatException e) {
            System.out.println("  " + e.getMessage());
        }
    }

    static void points() {
        int[] points = {'a', 'Z', '5', ' ', '_', 0x7f, '\n', 0xe9, 0xc9, 0x1f600, -1, 0x110000, '0', 'f', 'G'};
        for (int point : points) {
            if (point > 0x7f) {
                // (what is beyond ASCII is another matter)
                System.out.println(point + ": " + Character.isDigit(point) + " " + Character.isWhitespace(point) + " " + Character.digit(point, 16));
                continue;
            }
            System.out.println(point + ": " + Character.isDigit(point) + " " + Character.isLetter(point) + " " + Character.isLetterOrDigit(point) + " "
                + Character.isLowerCase(point) + " " + Character.isUpperCase(point) + " " + Character.isWhitespace(point) + " " + Character.toUpperCase(point) + " "
                + Character.toLowerCase(point) + " " + Character.digit(point, 10) + " " + Character.digit(point, 16) + " " + Character.digit(point, 37));
        }
    }

    static void overflow(int which, int value) {
        try {
            int result = which == 0 ? Math.incrementExact(value) : which == 1 ? Math.decrementExact(value) : Math.negateExact(value);
            System.out.println(which + " of " + value + " is " + result);
        } catch (ArithmeticException e) {
            System.out.println(which + " of " + value + ": " + e.getMessage());
        }
    }

    public static void main(String[] args) {
        for (String text : TEXTS) {
            parse(text);
        }
        points();
        for (int value : new int[] {0, 1, -1, Integer.MAX_VALUE, Integer.MIN_VALUE}) {
            for (int which = 0; which < 3; which++) {
                overflow(which, value);
            }
            System.out.println(Integer.hashCode(value) + " " + Integer.toUnsignedLong(value) + " " + Integer.sum(value, 5) + " " + Integer.max(value, 2) + " "
                + Integer.min(value, 2) + " " + Long.hashCode((long) value << 7) + " " + Long.sum(value, 1L << 33) + " " + Long.max(value, -3) + " " + Long.min(value, -3)
                + " " + Long.toString((long) value << 3));
            System.out.println(Byte.toString((byte) value) + " " + Byte.hashCode((byte) value) + " " + Short.toString((short) value) + " "
                + Short.hashCode((short) value) + " " + Character.hashCode((char) value) + " " + Byte.compare((byte) value, (byte) 3) + " " + Short.compare((short) value, (short) 3));
            System.out.println(new Byte((byte) value).toString() + " " + new Short((short) value).toString() + " " + new Long(value).toString()
                + " " + new Long(value).equals(Long.valueOf(value)) + " " + new Short((short) value).equals(Integer.valueOf(value)));
        }
        for (String text : new String[] {"true", "TRUE", "tRuE", "yes", "", null}) {
            System.out.println(text + " " + Boolean.parseBoolean(text) + " " + new Boolean(text).booleanValue() + " " + Boolean.toString(new Boolean(text)));
        }
    }
}
