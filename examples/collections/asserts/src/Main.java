/** A gap of two numbers whose conditions are asserted. */
public class Main {
    static int gcd(int one, int other) {
        assert one > 0 && other > 0;
        int result = one;
        int rest = other;
        while (rest != 0) {
            int next = result % rest;
            result = rest;
            rest = next;
        }
        assert one % result == 0 : "no divisor of " + one;
        return result;
    }

    public static void main(String[] args) {
        System.out.println(gcd(48, 36) + " " + gcd(17, 5) + " " + gcd(1000000, 35));
    }
}
