/** Converts numbers between bases: `FROM TO NUMBER ..` among the arguments. */
public class Main {
    static void convert(int from, int to, String digits) {
        try {
            int number = Integer.parseInt(digits, from);
            System.out.println(digits + " in base " + from + " is " + Integer.toString(number, to) + " in base " + to + ", " + number + " in base 10");
        } catch (NumberFormatException e) {
            System.out.println(digits + " is no number of base " + from);
        }
    }

    static void decode(String text) {
        try {
            int number = Integer.decode(text);
            long twice = Long.decode(text) * 2;
            System.out.println(text + " is " + number + ", twice " + twice);
        } catch (NumberFormatException e) {
            System.out.println(text + " isn't decoded");
        }
    }

    static boolean isPalindrome(int number, int base) {
        String digits = Integer.toString(number, base);
        for (int i = 0; i < digits.length() / 2; i++) {
            if (digits.charAt(i) != digits.charAt(digits.length() - 1 - i)) {
                return false;
            }
        }
        return true;
    }

    public static void main(String[] args) {
        int from = Integer.parseInt(args[0]);
        int to = Integer.valueOf(args[1]);
        for (int i = 2; i < args.length; i++) {
            convert(from, to, args[i]);
        }
        for (String text : new String[] {"12", "0x1f", "-0X7f", "#ff", "017", "08", "", "-", "2147483648"}) {
            decode(text);
        }
        int count = 0;
        for (int number = 1; number < 10000; number++) {
            if (isPalindrome(number, 10) && isPalindrome(number, 2)) {
                System.out.print(Integer.toString(number) + "=" + Integer.toBinaryString(number) + " ");
                count++;
            }
        }
        System.out.println("are " + count + " palindromes in both bases");
        int digitSum = 0;
        for (char digit = '0'; digit <= '9'; digit++) {
            digitSum += Character.digit(digit, 10) * Character.getNumericValue(Character.forDigit(digit - '0', 16));
        }
        System.out.println(digitSum);
    }
}
