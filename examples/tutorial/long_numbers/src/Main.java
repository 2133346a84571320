/** Longs: factorials, powers to a modulus, overflow. */
public class Main {
    static long factorial(int n) {
        long result = 1;
        for (int i = 2; i <= n; i++) {
            result *= i;
        }
        return result;
    }

    static long powerMod(long base, long exponent, long modulus) {
        long result = 1;
        for (base %= modulus; exponent > 0; exponent >>= 1) {
            if ((exponent & 1) == 1) {
                result = result * base % modulus;
            }
            base = base * base % modulus;
        }
        return result;
    }

    static boolean isProbablyPrime(long n) {
        for (long base = 2; base < 12; base++) {
            if (n > base && powerMod(base, n - 1, n) != 1) {
                return false;
            }
        }
        return n > 1;
    }

    public static void main(String[] args) {
        System.out.println(factorial(20) + " " + factorial(21));
        System.out.println(powerMod(2, 100, 1000000007L) + " " + powerMod(7, 222, 1000));
        System.out.println(isProbablyPrime(1000000007L) + " " + isProbablyPrime(1000000011L));
        long most = Long.MAX_VALUE;
        System.out.println(most + 1 == Long.MIN_VALUE ? "turns round" : "no");
        int million = 1000000;
        System.out.println(million * million + " " + (long) million * million + " " + (int) 5000000000L);
        long hash = 1125899906842597L;
        for (char c : "tutorial".toCharArray()) {
            hash = 31 * hash + c;
        }
        System.out.println(hash + " " + (hash >>> 60) + " " + (hash >> 60) + " " + Long.toHexString(hash));
        System.out.println(-7 / 2 + " " + -7 % 2 + " " + Math.abs(-7L) + " " + Long.parseLong("-9223372036854775808"));
    }
}
