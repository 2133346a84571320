package zuqelash;

/** What the library makes texts with, beside Java's own classes. */
public final class Texts {
    Texts() {
    }

    /**
     * Makes a text of the chars from {@code start} to before {@code end}, in linear time, through an array of these that is freed. A
     * builder to which they are added one by one leaves the square of their number.
     */
    public static String of(char[] chars, int start, int end) {
        char[] part = new char[end - start];
        for (int index = start; index < end; index++) {
            part[index - start] = chars[index];
        }
        return String.valueOf(part);
    }

    /**
     * Makes a text of texts, with {@code inner} and {@code outer} between them by turns, one before them and one after them, in linear time,
     * through an array of chars that is freed. A null among the texts counts as {@code null}.
     */
    public static String joined(String first, String[] texts, int count, String inner, String outer, String last) {
        int length = first.length() + last.length();
        for (int index = 0; index < count; index++) {
            if (texts[index] == null) {
                texts[index] = "null";
            }
            length += texts[index].length() + (index == 0 ? 0 : index % 2 == 0 ? outer.length() : inner.length());
        }
        char[] chars = new char[length];
        int place = put(first, chars, 0);
        for (int index = 0; index < count; index++) {
            if (index > 0) {
                place = put(index % 2 == 0 ? outer : inner, chars, place);
            }
            place = put(texts[index], chars, place);
        }
        put(last, chars, place);
        return String.valueOf(chars);
    }

    /** Makes a text of numbers between two chars, with commas between them, in linear time; what it needs besides is freed. */
    public static String listed(char first, long[] numbers, char last) {
        int length = 2;
        for (int index = 0; index < numbers.length; index++) {
            String number = String.valueOf(numbers[index]);
            length += number.length() + (index == 0 ? 0 : 2);
        }
        char[] chars = new char[length];
        chars[0] = first;
        int place = 1;
        for (int index = 0; index < numbers.length; index++) {
            if (index > 0) {
                chars[place++] = ',';
                chars[place++] = ' ';
            }
            String number = String.valueOf(numbers[index]);
            place = put(number, chars, place);
        }
        chars[place] = last;
        return String.valueOf(chars);
    }

    /** Puts the chars of a text into an array from a place on, and returns the place behind them. */
    private static int put(String text, char[] chars, int place) {
        int length = text.length();
        for (int index = 0; index < length; index++) {
            chars[place++] = text.charAt(index);
        }
        return place;
    }
}
