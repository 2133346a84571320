import java.util.HashMap;
import java.util.LinkedHashMap;
import java.util.Map;

/** Roman numerals, both ways. */
public class Main {
    private static final Map<String, Integer> PARTS = new LinkedHashMap<String, Integer>();
    private static final Map<Character, Integer> LETTERS = new HashMap<Character, Integer>();

    static {
        String[] names = {"M", "CM", "D", "CD", "C", "XC", "L", "XL", "X", "IX", "V", "IV", "I"};
        int[] values = {1000, 900, 500, 400, 100, 90, 50, 40, 10, 9, 5, 4, 1};
        for (int i = 0; i < names.length; i++) {
            PARTS.put(names[i], values[i]);
            if (names[i].length() == 1) {
                LETTERS.put(names[i].charAt(0), values[i]);
            }
        }
    }

    static String toRoman(int number) {
        StringBuilder numeral = new StringBuilder();
        int rest = number;
        for (Map.Entry<String, Integer> part : PARTS.entrySet()) {
            while (rest >= part.getValue()) {
                numeral.append(part.getKey());
                rest -= part.getValue();
            }
        }
        return numeral.toString();
    }

    static int toNumber(String numeral) {
        int number = 0;
        int before = 0;
        for (int i = numeral.length() - 1; i >= 0; i--) {
            Integer value = LETTERS.get(numeral.charAt(i));
            if (value == null) {
                throw new NumberFormatException("no numeral: " + numeral);
            }
            number += value < before ? -value : value;
            before = Math.max(before, value);
        }
        return number;
    }

    public static void main(String[] args) {
        for (int number : new int[] {1, 4, 9, 14, 40, 99, 444, 1987, 2026, 3999}) {
            System.out.println(number + " is " + toRoman(number));
        }
        int wrong = 0;
        for (int number = 1; number < 4000; number++) {
            if (toNumber(toRoman(number)) != number) {
                wrong++;
            }
        }
        System.out.println(wrong + " of 3999 are wrong");
        try {
            toNumber("MQX");
        } catch (NumberFormatException e) {
            System.out.println(e.getMessage());
        }
    }
}
