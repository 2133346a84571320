/** Bits of ints, one by one and together. */
public class Main {
    static final int READ = 1;
    static final int WRITE = 1 << 1;
    static final int RUN = 1 << 2;

    static String rights(int mask) {
        return ((mask & READ) != 0 ? "r" : "-") + ((mask & WRITE) != 0 ? "w" : "-") + ((mask & RUN) != 0 ? "x" : "-");
    }

    static int count(int bits) {
        int count = 0;
        for (; bits != 0; bits &= bits - 1) {
            count++;
        }
        return count;
    }

    static int reversed(int bits) {
        int result = 0;
        for (int i = 0; i < 32; i++) {
            result = result << 1 | bits & 1;
            bits >>>= 1;
        }
        return result;
    }

    public static void main(String[] args) {
        int mask = READ | RUN;
        System.out.println(rights(mask) + " " + rights(mask | WRITE) + " " + rights(mask & ~READ) + " " + rights(mask ^ 7));
        System.out.println((-17 >> 2) + " " + (-17 >>> 28) + " " + (1 << 33) + " " + (1L << 33) + " " + ~0x0f);
        for (int bits : new int[] {0, 1, 255, -1, 0x5555}) {
            System.out.println(Integer.toBinaryString(bits) + " " + count(bits) + " " + Integer.bitCount(bits) + " " + Integer.toHexString(reversed(bits)));
        }
        int a = 12;
        int b = 25;
        a ^= b;
        b ^= a;
        a ^= b;
        System.out.println(a + " " + b + " " + Integer.highestOneBit(100) + " " + Integer.numberOfTrailingZeros(96));
        byte small = (byte) 200;
        System.out.println(small + " " + (small & 0xff) + " " + (short) 70000 + " " + Integer.parseInt("-7f", 16) + " " + Integer.toOctalString(64));
    }
}
