/** Numbers of any length, whose digits are in arrays. */
public class Main {
    private final int[] digits;

    Main(String text) {
        digits = new int[text.length()];
        for (int i = 0; i < digits.length; i++) {
            digits[i] = text.charAt(text.length() - 1 - i) - '0';
        }
    }

    private Main(int[] digits) {
        int length = digits.length;
        while (length > 1 && digits[length - 1] == 0) {
            length--;
        }
        this.digits = new int[length];
        System.arraycopy(digits, 0, this.digits, 0, length);
    }

    Main plus(Main other) {
        int length = Math.max(digits.length, other.digits.length) + 1;
        int[] sum = new int[length];
        int carry = 0;
        for (int i = 0; i < length; i++) {
            carry += (i < digits.length ? digits[i] : 0) + (i < other.digits.length ? other.digits[i] : 0);
            sum[i] = carry % 10;
            carry /= 10;
        }
        return new Main(sum);
    }

    Main times(Main other) {
        int[] product = new int[digits.length + other.digits.length];
        for (int i = 0; i < digits.length; i++) {
            int carry = 0;
            for (int j = 0; j < other.digits.length || carry > 0; j++) {
                carry += product[i + j] + digits[i] * (j < other.digits.length ? other.digits[j] : 0);
                product[i + j] = carry % 10;
                carry /= 10;
            }
        }
        return new Main(product);
    }

    @Override
    public String toString() {
        StringBuilder text = new StringBuilder();
        for (int i = digits.length - 1; i >= 0; i--) {
            text.append(digits[i]);
        }
        return text.toString();
    }

    public static void main(String[] args) {
        Main factorial = new Main("1");
        for (int i = 2; i <= 30; i++) {
            factorial = factorial.times(new Main("" + i));
        }
        System.out.println("30! = " + factorial);
        Main a = new Main("0");
        Main b = new Main("1");
        for (int i = 0; i < 150; i++) {
            Main next = a.plus(b);
            a = b;
            b = next;
        }
        System.out.println("fibonacci 150 = " + a);
        System.out.println(new Main("999").times(new Main("1001")).plus(new Main("1")));
    }
}
