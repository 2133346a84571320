/** Whole numbers of any length on arrays of ints: factorials, powers, Fibonacci numbers, division, and the digits of e. */
public class Main {
    static final class Natural {
        static final int BASE = 10000;
        private final int[] digits;
        private final int length;

        private Natural(int[] digits) {
            int n = digits.length;
            while (n > 0 && digits[n - 1] == 0) {
                n--;
            }
            this.digits = digits;
            this.length = n;
        }

        static Natural of(int value) {
            if (value < 0) {
                throw new IllegalArgumentException("negative: " + value);
            }
            int[] d = new int[3];
            for (int i = 0; value > 0; i++, value /= BASE) {
                d[i] = value % BASE;
            }
            return new Natural(d);
        }

        Natural plus(Natural other) {
            int n = (length > other.length ? length : other.length) + 1;
            int[] sum = new int[n];
            int carry = 0;
            for (int i = 0; i < n; i++) {
                int s = carry;
                if (i < length) s += digits[i];
                if (i < other.length) s += other.digits[i];
                sum[i] = s % BASE;
                carry = s / BASE;
            }
            return new Natural(sum);
        }

        Natural minus(Natural other) {
            int[] rest = new int[length];
            int borrow = 0;
            for (int i = 0; i < length; i++) {
                int s = digits[i] - borrow - (i < other.length ? other.digits[i] : 0);
                borrow = s < 0 ? 1 : 0;
                rest[i] = s + borrow * BASE;
            }
            if (borrow != 0 || other.length > length) {
                throw new ArithmeticException("below zero");
            }
            return new Natural(rest);
        }

        Natural times(Natural other) {
            long[] wide = new long[length + other.length + 1];
            for (int i = 0; i < length; i++) {
                for (int k = 0; k < other.length; k++) {
                    wide[i + k] += (long) digits[i] * other.digits[k];
                }
            }
            int[] product = new int[wide.length];
            long carry = 0;
            for (int i = 0; i < wide.length; i++) {
                long s = wide[i] + carry;
                product[i] = (int) (s % BASE);
                carry = s / BASE;
            }
            return new Natural(product);
        }

        Natural over(int divisor) {
            int[] quotient = new int[length];
            int rest = 0;
            for (int i = length - 1; i >= 0; i--) {
                int s = rest * BASE + digits[i];
                quotient[i] = s / divisor;
                rest = s % divisor;
            }
            return new Natural(quotient);
        }

        Natural power(int exponent) {
            Natural result = of(1), base = this;
            while (exponent != 0) {
                if ((exponent & 1) == 1) result = result.times(base);
                base = base.times(base);
                exponent >>>= 1;
            }
            return result;
        }

        int compareTo(Natural other) {
            if (length != other.length) return length < other.length ? -1 : 1;
            for (int i = length - 1; i >= 0; i--) {
                if (digits[i] != other.digits[i]) return digits[i] - other.digits[i];
            }
            return 0;
        }

        public String toString() {
            if (length == 0) return "0";
            StringBuilder text = new StringBuilder();
            text.append(digits[length - 1]);
            for (int i = length - 2; i >= 0; i--) {
                int d = digits[i];
                if (d < 1000) text.append('0');
                if (d < 100) text.append('0');
                if (d < 10) text.append('0');
                text.append(d);
            }
            return text.toString();
        }
    }

    static Natural factorial(int n) {
        return n == 0 ? Natural.of(1) : factorial(n - 1).times(Natural.of(n));
    }

    static Natural fibonacci(int n) {
        Natural a = Natural.of(0), b = Natural.of(1);
        for (int i = 0; i < n; i++) {
            Natural c = a.plus(b);
            a = b;
            b = c;
        }
        return a;
    }

    static String e(int digits) {
        Natural one = Natural.of(10).power(digits + 5);
        Natural sum = one, term = one;
        for (int k = 1; term.compareTo(Natural.of(0)) > 0; k++) {
            term = term.over(k);
            sum = sum.plus(term);
        }
        String s = sum.toString();
        return s.substring(0, 1) + '.' + s.substring(1, digits);
    }

    public static void main(String[] args) {
        System.out.println(factorial(50).toString());
        System.out.println(fibonacci(300).toString());
        System.out.println(Natural.of(7).power(123).toString());
        System.out.println(e(60));
        Natural big = Natural.of(2).power(200);
        System.out.println(big.minus(Natural.of(1)).toString());
        try {
            Natural.of(5).minus(Natural.of(6));
        } catch (ArithmeticException below) {
            System.out.println(below.toString());
        }
        try {
            Natural.of(-3);
        } catch (IllegalArgumentException negative) {
            System.out.println(negative.getMessage());
        }
        System.out.println(big.compareTo(big.plus(Natural.of(1))));
    }
}
