/** Greatest common divisors, with asserts before and after, and an error of one's own. */
public class Main {
    static int gcd(int a, int b) {
        assert a > 0 && b > 0 : a + ", " + b;
        int x = a;
        int y = b;
        while (y != 0) {
            int rest = x % y;
            x = y;
            y = rest;
        }
        assert a % x == 0 && b % x == 0;
        return x;
    }

    static String sign(int number) {
        if (number > 0) {
            return "+";
        } else if (number < 0) {
            return "-";
        } else if (number == 0) {
            return "0";
        }
        throw new AssertionError("never");
    }

    public static void main(String[] args) {
        System.out.println(gcd(12, 18) + " " + gcd(7, 5) + " " + gcd(1071, 462));
        System.out.println(sign(5) + sign(-3) + sign(0));
        try {
            throw new AssertionError(42);
        } catch (AssertionError e) {
            System.out.println(e.getMessage() + " " + e);
        }
    }
}
