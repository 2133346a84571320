/** Whole-number arithmetic at its edges, of ints, longs and the narrow kinds, gathered into a checksum and printed at places of note. */
public class Main {
    static final int[] INTS = { 0, 1, -1, 2, -2, 31, 32, 33, 63, 64, 127, 128, -128, -129, 255, 256, 32767, 32768, -32768, 65535, 65536, 2147483647, -2147483648, 1234567890, -987654321 };
    static final long[] LONGS = { 0, 1, -1, 2, -2, 31, 32, 63, 64, 65, 4294967295L, 4294967296L, -4294967296L, 9223372036854775807L, -9223372036854775808L, 1234567890123456789L, -987654321987654321L, 2147483648L, -2147483649L };
    byte b; char c; short s; boolean z; long wide;
    static byte sb; static char sc; static short ss; static boolean sz; static long sl;
    static long sum;

    static void mix(long v) { sum = (sum << 5 | sum >>> 59) ^ v * 0x9E3779B97F4A7C15L; }

    static void ints() {
        for (int i = 0; i < INTS.length; i++)
            for (int k = 0; k < INTS.length; k++) {
                int a = INTS[i], b = INTS[k];
                mix(a + b); mix(a - b); mix(a * b); mix(a & b); mix(a | b); mix(a ^ b); mix(a << b); mix(a >> b); mix(a >>> b);
                try { mix(a / b); mix(a % b); } catch (ArithmeticException e) { mix(77); }
                mix(a < b ? 1 : a == b ? 2 : 3); mix(a >= b ? 4 : 5); mix(a <= b ? 6 : 7); mix(a > b ? 8 : 9); mix(-a); mix(~a);
            }
    }
    static void longs() {
        for (int i = 0; i < LONGS.length; i++)
            for (int k = 0; k < LONGS.length; k++) {
                long a = LONGS[i], b = LONGS[k];
                mix(a + b); mix(a - b); mix(a * b); mix(a & b); mix(a | b); mix(a ^ b); mix(a << (int) b); mix(a >> (int) b); mix(a >>> (int) b); mix(a << b);
                try { mix(a / b); mix(a % b); } catch (ArithmeticException e) { mix(99); }
                mix(a < b ? 1 : a == b ? 2 : 3); mix(a >= b ? 4 : 5); mix(a <= b ? 6 : 7); mix(a > b ? 8 : 9); mix(-a); mix(~a);
                mix((int) a); mix((byte) a); mix((char) a); mix((short) a);
            }
    }
    void narrow() {
        byte[] bytes = new byte[INTS.length];
        char[] chars = new char[INTS.length];
        short[] shorts = new short[INTS.length];
        boolean[] flags = new boolean[INTS.length];
        long[] wides = new long[INTS.length];
        for (int i = 0; i < INTS.length; i++) {
            int v = INTS[i];
            b = (byte) v; c = (char) v; s = (short) v; z = (v & 1) == 1; wide = v;
            sb = b; sc = c; ss = s; sz = z; sl = wide * v;
            bytes[i] += v; chars[i] += v; shorts[i] -= v; flags[i] |= z; wides[i] ^= sl;
            b++; c++; s++; b <<= 1; c >>= 1; s >>>= 1; b /= 3; c %= 1000; s *= 7;
            mix(b); mix(c); mix(s); mix(sb); mix(sc); mix(ss); mix(sz ? 1 : 0); mix(sl);
            mix(bytes[i]++); mix(++chars[i]); mix(shorts[i]--); mix(flags[i] ? 1 : 2); mix(--wides[i]);
            wide += v; wide -= c; wide <<= b; mix(wide);
        }
        int[] counts = { 0, 0 };
        counts[counts[0]++]++;
        counts[1] += counts[0]++ + ++counts[0];
        mix(counts[0] * 1000 + counts[1]);
    }
    static int locals(int a, long b, int c, long d) {
        int i0 = a, i1 = c;
        long l0 = b, l1 = d;
        for (int i = 0; i < 300; i++) {
            i0 += 1000;
            i1 -= 129;
            l0 += i0 * (long) i1;
            l1 = l1 ^ l0 >>> i;
            if ((l1 & 7) == 3) { i0 ^= (int) l1; } else if (l0 > l1) i1++;
        }
        return (int) (l0 ^ l1) + i0 - i1;
    }
    public static void main(String[] args) {
        ints();
        System.out.println(sum);
        longs();
        System.out.println(sum);
        new Main().narrow();
        System.out.println(sum);
        System.out.println(locals(7, -3L, 123456, 1L << 60));
        System.out.println((-2147483648 / -1) + " " + (-2147483648 % -1) + " " + (-9223372036854775808L / sl1()) + " " + (-9223372036854775808L % sl1()));
        System.out.println((7 / -2) + " " + (7 % -2) + " " + (-7 / 2) + " " + (-7 % 2) + " " + (-7 >> 1) + " " + (-7 >>> 28) + " " + (1 << 33) + " " + (1L << 33) + " " + (1L << 65));
        System.out.println((byte) 200 + " " + (char) 97 + " " + (short) 40000 + " " + (int) 5000000000L + " " + (char) (byte) -2 % 1000 + " " + (int) (char) -1);
        System.out.println(String.valueOf(-9223372036854775807L - 1) + String.valueOf(-2147483647 - 1) + String.valueOf('x') + String.valueOf(true));
    }
    static long sl1() { return -1; }
}
