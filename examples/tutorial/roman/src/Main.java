import java.util.LinkedHashMap;
import java.util.Map;

/** Roman numerals, forth and back. */
public class Main {
    static final Map<String, Integer> VALUES = new LinkedHashMap<String, Integer>();

    static {
        String[] letters = {"M", "CM", "D", "CD", "C", "XC", "L", "XL", "X", "IX", "V", "IV", "I"};
        int[] values = {1000, 900, 500, 400, 100, 90, 50, 40, 10, 9, 5, 4, 1};
        for (int i = 0; i < letters.length; i++) {
            VALUES.put(letters[i], values[i]);
        }
    }

    static String roman(int number) {
        StringBuilder text = new StringBuilder();
        for (Map.Entry<String, Integer> each : VALUES.entrySet()) {
            while (number >= each.getValue()) {
                text.append(each.getKey());
                number -= each.getValue();
            }
        }
        return text.toString();
    }

    static int number(String roman) {
        int sum = 0;
        for (int i = 0; i < roman.length(); i++) {
            int value = VALUES.get(roman.substring(i, i + 1));
            boolean isBefore = i + 1 < roman.length() && VALUES.get(roman.substring(i + 1, i + 2)) > value;
            sum += isBefore ? -value : value;
        }
        return sum;
    }

    public static void main(String[] args) {
        int[] numbers = {1, 4, 9, 14, 40, 90, 400, 1987, 2026, 3999};
        for (int number : numbers) {
            System.out.println(number + " = " + roman(number) + " = " + number(roman(number)));
        }
    }
}
