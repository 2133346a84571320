package zuqelash;

import java.util.DuplicateFormatFlagsException;
import java.util.FormatFlagsConversionMismatchException;
import java.util.IllegalFormatCodePointException;
import java.util.IllegalFormatConversionException;
import java.util.IllegalFormatFlagsException;
import java.util.IllegalFormatPrecisionException;
import java.util.IllegalFormatWidthException;
import java.util.MissingFormatArgumentException;
import java.util.MissingFormatWidthException;
import java.util.UnknownFormatConversionException;

/**
 * A format with its arguments, as {@code String.format} has it: whole numbers, chars, booleans and texts. Its parts are made one after
 * the other, as a stream prints those before one that fails.
 */
public final class Format {
    /** The flags, in the order in which messages have them; a capital letter as the conversion is the second one, which can't be written. */
    private static final String FLAGS = "-^#+ 0,(<";
    private static final int LEFT = 1;
    private static final int CAPITALS = 2;
    private static final int ALTERNATE = 4;
    private static final int PLUS = 8;
    private static final int SPACE = 16;
    private static final int ZERO = 32;
    private static final int GROUP = 64;
    private static final int BRACKETS = 128;
    private static final int PREVIOUS = 256;
    private static final int NONE = -1;

    private final String format;
    private final Object[] arguments;
    /** Where the next part begins, and the place of the next ordinary argument and of the last one that was taken. */
    private int at;
    private int next;
    private int last = NONE;
    /** What is read of the specifier at hand: its argument (0 for the next one), flags, width, precision and conversion. */
    private int argument;
    private int flags;
    private int width;
    private int precision;
    private char conversion;

    /** Reads a format, and throws what Java does where it is none, in the time of its length. */
    public Format(String format, Object[] arguments) {
        this.format = format;
        this.arguments = arguments;
        while (at < format.length()) {
            if (format.charAt(at) == '%') {
                readSpecifier();
            } else {
                at++;
            }
        }
        at = 0;
    }

    /** Makes the whole text, in linear time beside its parts. */
    public static String of(String format, Object[] arguments) {
        Format parts = new Format(format, arguments);
        int most = 1;
        for (int index = 0; index < format.length(); index++) {
            most += format.charAt(index) == '%' ? 2 : 0;
        }
        String[] texts = new String[most];
        int count = 0;
        while (parts.hasNext()) {
            texts[count++] = parts.next();
        }
        return Texts.joined("", texts, count, "", "", "");
    }

    /** Returns whether there is a further part, in constant time. */
    public boolean hasNext() {
        return at < format.length();
    }

    /** Returns the next part: what is between two specifiers, or what one of them makes of its argument. */
    public String next() {
        if (format.charAt(at) == '%') {
            readSpecifier();
            return conversion == 'n' ? "\n" : conversion == '%' ? justified("%") : converted(takenArgument());
        }
        int start = at;
        while (at < format.length() && format.charAt(at) != '%') {
            at++;
        }
        return format.substring(start, at);
    }

    private void readSpecifier() {
        int start = ++at;
        if (at == format.length()) {
            throw new UnknownFormatConversionException("%");
        }
        argument = 0;
        flags = 0;
        int count = digitsFrom(at);
        if (count > 0 && at + count < format.length() && format.charAt(at + count) == '$') {
            argument = number(count);
            at++;
        }
        int twice = 0;
        while (at < format.length() && format.charAt(at) != '^' && placeOf(format.charAt(at), FLAGS) >= 0) {
            int flag = 1 << placeOf(format.charAt(at++), FLAGS);
            twice = twice == 0 ? flags & flag : twice;
            flags |= flag;
            argument = flag == PREVIOUS ? NONE : argument;
        }
        width = number(digitsFrom(at));
        precision = NONE;
        if (at < format.length() && format.charAt(at) == '.') {
            at++;
            count = digitsFrom(at);
            precision = number(count);
            if (count == 0) {
                throw unknown(start);
            }
        }
        if (at == format.length() || !isLetter(format.charAt(at)) && format.charAt(at) != '%') {
            throw unknown(start);
        }
        if (twice != 0) {
            throw new DuplicateFormatFlagsException(namesOf(twice));
        }
        readConversion();
    }

    private void readConversion() {
        if (placeOf(format.charAt(at), "bBhHsScCdoxXeEgGfaAn%") < 0) {
            throw unknown(at);
        }
        conversion = format.charAt(at++);
        if (conversion >= 'A' && conversion <= 'Z') {
            flags |= CAPITALS;
            conversion += 'a' - 'A';
        }
        if (conversion == 'n' || conversion == '%') {
            argument = NONE;
        }
        check();
    }

    private UnknownFormatConversionException unknown(int place) {
        return new UnknownFormatConversionException(String.valueOf(format.charAt(place)));
    }

    private static int placeOf(char value, String text) {
        int index = text.length() - 1;
        while (index >= 0 && text.charAt(index) != value) {
            index--;
        }
        return index;
    }

    private static boolean isLetter(char value) {
        return value >= 'a' && value <= 'z' || value >= 'A' && value <= 'Z';
    }

    private int digitsFrom(int start) {
        int end = start;
        while (end < format.length() && format.charAt(end) >= '0' && format.charAt(end) <= '9') {
            end++;
        }
        return end - start;
    }

    /** Takes that many digits: the number, or -1 where there are none. */
    private int number(int count) {
        if (count == 0) {
            return NONE;
        }
        long value = 0;
        for (int end = at + count; at < end; at++) {
            value = value > Integer.MAX_VALUE ? value : value * 10 + format.charAt(at) - '0';
        }
        if (value > Integer.MAX_VALUE) {
            throw new IllegalFormatWidthException(Integer.MIN_VALUE);
        }
        return (int) value;
    }

    private boolean has(int flag) {
        return (flags & flag) != 0;
    }

    private static String namesOf(int flags) {
        StringBuilder names = new StringBuilder();
        for (int index = 0; index < FLAGS.length(); index++) {
            if ((flags & 1 << index) != 0) {
                names.append(FLAGS.charAt(index));
            }
        }
        return names.toString();
    }

    private void check() {
        switch (conversion) {
            case 'b':
            case 'h':
                forbid(ALTERNATE);
            case 's':
                requireWidth(LEFT);
                forbid(PLUS | SPACE | ZERO | GROUP | BRACKETS);
                break;
            case 'c':
                forbidPrecision();
                forbid(ALTERNATE | PLUS | SPACE | ZERO | GROUP | BRACKETS);
                requireWidth(LEFT);
                break;
            case 'd':
                checkNumber();
                forbidPrecision();
                forbid(ALTERNATE);
                break;
            case 'o':
            case 'x':
                checkNumber();
                forbidPrecision();
                forbid(GROUP);
                break;
            case 'n':
            case '%':
                checkText();
                break;
            default:
                checkNumber();
                forbid(conversion == 'a' ? BRACKETS : 0);
                forbid(conversion == 'a' || conversion == 'e' ? GROUP : conversion == 'g' ? ALTERNATE : 0);
        }
    }

    private void checkNumber() {
        requireWidth(LEFT | ZERO);
        if (has(PLUS) && has(SPACE) || has(LEFT) && has(ZERO)) {
            throw new IllegalFormatFlagsException(namesOf(flags));
        }
    }

    private void checkText() {
        forbidPrecision();
        if (conversion == 'n' && width != NONE) {
            throw new IllegalFormatWidthException(width);
        }
        if ((flags & (conversion == 'n' ? ~0 : ~LEFT)) != 0) {
            throw new IllegalFormatFlagsException(namesOf(flags));
        }
        requireWidth(LEFT);
    }

    private void forbid(int forbidden) {
        for (int index = 0; index < FLAGS.length(); index++) {
            int flag = 1 << index;
            if ((flags & forbidden & flag) != 0) {
                throw new FormatFlagsConversionMismatchException(namesOf(flag), conversion);
            }
        }
    }

    private void forbidPrecision() {
        if (precision != NONE) {
            throw new IllegalFormatPrecisionException(precision);
        }
    }

    private void requireWidth(int by) {
        if (width == NONE && has(by)) {
            throw new MissingFormatWidthException(specifier());
        }
    }

    /** The specifier at hand, as messages have it. */
    private String specifier() {
        StringBuilder text = new StringBuilder().append('%').append(namesOf(flags & ~CAPITALS));
        if (argument > 0) {
            text.append(argument).append('$');
        }
        if (width != NONE) {
            text.append(width);
        }
        if (precision != NONE) {
            text.append('.').append(precision);
        }
        return text.append((char) (has(CAPITALS) ? conversion - ('a' - 'A') : conversion)).toString();
    }

    private Object takenArgument() {
        if (argument == 0) {
            last = next++;
        } else if (argument > 0) {
            last = argument - 1;
        }
        if (last < 0 || arguments != null && last >= arguments.length) {
            throw new MissingFormatArgumentException(specifier());
        }
        return arguments == null ? null : arguments[last];
    }

    private String converted(Object value) {
        if (conversion == 'b') {
            return cut(value == null ? "false" : value instanceof Boolean ? value.toString() : "true");
        }
        if (conversion == 's') {
            if (has(ALTERNATE)) {
                throw new FormatFlagsConversionMismatchException(namesOf(ALTERNATE), conversion);
            }
            return cut(value == null ? "null" : value.toString());
        }
        if (value == null) {
            return cut("null");
        }
        if (conversion == 'h') {
            return cut(Integer.toHexString(value.hashCode()));
        }
        if (conversion == 'c') {
            return cut(letter(value));
        }
        boolean isWhole = value instanceof Integer || value instanceof Long || value instanceof Short || value instanceof Byte;
        if (!isWhole || conversion != 'd' && conversion != 'o' && conversion != 'x') {
            throw new IllegalFormatConversionException(conversion, nameOf(value));
        }
        long number = ((Number) value).longValue();
        if (conversion == 'd') {
            return decimal(number);
        }
        int bits = value instanceof Integer ? 32 : value instanceof Short ? 16 : value instanceof Byte ? 8 : 0;
        return bitwise(number < 0 && bits > 0 ? number + (1L << bits) : number);
    }

    /** The name of a value's class: all that are asked for are boxes and texts, as others have no number or char. */
    private static String nameOf(Object value) {
        String[] names = {"String", "Character", "Boolean", "Integer", "Long", "Short", "Byte"};
        boolean[] fits = {
            value instanceof String, value instanceof Character, value instanceof Boolean, value instanceof Integer, value instanceof Long,
            value instanceof Short, value instanceof Byte,
        };
        for (int index = 0; index < names.length; index++) {
            if (fits[index]) {
                return new StringBuilder().append("java.lang.").append(names[index]).toString();
            }
        }
        return "java.lang.Object";
    }

    private String letter(Object value) {
        if (value instanceof Character) {
            return value.toString();
        }
        if (!(value instanceof Integer || value instanceof Short || value instanceof Byte)) {
            throw new IllegalFormatConversionException(conversion, nameOf(value));
        }
        int point = ((Number) value).intValue();
        if (point < 0 || point > Character.MAX_CODE_POINT) {
            throw new IllegalFormatCodePointException(point);
        }
        if (point <= Character.MAX_VALUE) {
            return String.valueOf((char) point);
        }
        int rest = point - Character.MIN_SUPPLEMENTARY_CODE_POINT;
        char high = (char) (Character.MIN_HIGH_SURROGATE + (rest >> 10));
        char low = (char) (Character.MIN_LOW_SURROGATE + (rest & 0x3ff));
        return new StringBuilder().append(high).append(low).toString();
    }

    private String decimal(long number) {
        if ((flags & ~LEFT) == 0) {
            return justified(String.valueOf(number));
        }
        boolean isNegative = number < 0;
        StringBuilder text = new StringBuilder();
        if (isNegative) {
            text.append(has(BRACKETS) ? '(' : '-');
        } else if (has(PLUS) || has(SPACE)) {
            text.append(has(PLUS) ? '+' : ' ');
        }
        String digits = String.valueOf(number).substring(isNegative ? 1 : 0, String.valueOf(number).length());
        if (has(ZERO)) {
            int grouped = has(GROUP) ? (digits.length() - 1) / 3 : 0;
            int closing = isNegative && has(BRACKETS) ? 1 : 0;
            addZeros(text, width - closing - text.length() - digits.length() - grouped);
        }
        if (has(GROUP)) {
            int first = (digits.length() - 1) % 3 + 1;
            text.append(digits.substring(0, first));
            for (int start = first; start < digits.length(); start += 3) {
                text.append(',').append(digits.substring(start, start + 3));
            }
        } else {
            text.append(digits);
        }
        if (isNegative && has(BRACKETS)) {
            text.append(')');
        }
        return justified(text.toString());
    }

    private String bitwise(long number) {
        forbid(BRACKETS);
        forbid(SPACE);
        forbid(PLUS);
        String digits = conversion == 'o' ? Long.toOctalString(number) : Long.toHexString(number);
        String before = !has(ALTERNATE) ? "" : conversion == 'o' ? "0" : "0x";
        StringBuilder text = new StringBuilder().append(before);
        if (has(ZERO)) {
            addZeros(text, width - before.length() - digits.length());
        }
        return justified(capitals(text.append(digits).toString()));
    }

    private static void addZeros(StringBuilder text, int count) {
        if (count > 0) {
            char[] zeros = new char[count];
            for (int index = 0; index < count; index++) {
                zeros[index] = '0';
            }
            text.append(String.valueOf(zeros));
        }
    }

    private String capitals(String text) {
        if (!has(CAPITALS)) {
            return text;
        }
        char[] chars = new char[text.length()];
        for (int index = 0; index < chars.length; index++) {
            chars[index] = Character.toUpperCase(text.charAt(index));
        }
        return String.valueOf(chars);
    }

    /** A text as long as the precision allows, in capital letters where they are asked for, and justified. */
    private String cut(String text) {
        return justified(capitals(precision != NONE && precision < text.length() ? text.substring(0, precision) : text));
    }

    private String justified(String text) {
        if (width <= text.length()) {
            return text;
        }
        char[] chars = new char[width];
        int first = has(LEFT) ? 0 : width - text.length();
        for (int index = 0; index < width; index++) {
            chars[index] = index < first || index >= first + text.length() ? ' ' : text.charAt(index - first);
        }
        return String.valueOf(chars);
    }
}
