/** Functions that call themselves and one another. */
public class Main {
    static int calls;

    static int ackermann(int m, int n) {
        calls++;
        return m == 0 ? n + 1 : n == 0 ? ackermann(m - 1, 1) : ackermann(m - 1, ackermann(m, n - 1));
    }

    static long power(long base, int exponent) {
        if (exponent == 0) {
            return 1;
        }
        long half = power(base, exponent / 2);
        return exponent % 2 == 0 ? half * half : half * half * base;
    }

    static boolean isEven(int n) {
        return n == 0 || isOdd(n - 1);
    }

    static boolean isOdd(int n) {
        return n != 0 && isEven(n - 1);
    }

    static String reversed(String text) {
        return text.length() < 2 ? text : reversed(text.substring(1)) + text.charAt(0);
    }

    static int ways(int steps) {
        return steps < 0 ? 0 : steps == 0 ? 1 : ways(steps - 1) + ways(steps - 2) + ways(steps - 3);
    }

    static int digits(int n) {
        return n < 10 ? n : n % 10 + digits(n / 10);
    }

    public static void main(String[] args) {
        System.out.println(ackermann(2, 3) + " by " + calls + " calls");
        System.out.println(power(3, 20) + " " + power(-2, 63));
        System.out.println(isEven(100) + " " + isOdd(100));
        System.out.println(reversed("stressed"));
        System.out.println(ways(10) + " " + digits(987654321));
    }
}
