/** Tables: matrices of longs by a prime, a checksum over bytes with masks, and runs of bytes that are packed. */
public class Main {
    private static final long PRIME = 1000000007L;

    private static long[][] product(long[][] left, long[][] right) {
        int size = left.length;
        long[][] product = new long[size][size];
        for (int i = 0; i < size; i++) {
            for (int j = 0; j < size; j++) {
                long sum = 0;
                for (int k = 0; k < size; k++) {
                    sum = (sum + left[i][k] * right[k][j]) % PRIME;
                }
                product[i][j] = sum;
            }
        }
        return product;
    }

    private static long[][] power(long[][] base, int exponent) {
        int size = base.length;
        long[][] power = new long[size][size];
        for (int i = 0; i < size; i++) {
            power[i][i] = 1;
        }
        for (int left = exponent; left > 0; left >>= 1) {
            if ((left & 1) != 0) {
                power = product(power, base);
            }
            base = product(base, base);
        }
        return power;
    }

    /** The checksum CRC-32, a byte at a time by a table. */
    static final class Checksum {
        private final int[] table = new int[256];
        private int value;

        Checksum() {
            for (int i = 0; i < table.length; i++) {
                int entry = i;
                for (int bit = 0; bit < 8; bit++) {
                    entry = (entry & 1) != 0 ? entry >>> 1 ^ 0xedb88320 : entry >>> 1;
                }
                table[i] = entry;
            }
        }

        void add(byte[] bytes, int length) {
            int sum = ~value;
            for (int i = 0; i < length; i++) {
                sum = table[(sum ^ bytes[i]) & 0xff] ^ sum >>> 8;
            }
            value = ~sum;
        }

        long value() {
            return value & 0xffffffffL;
        }
    }

    /** Writes runs of two bytes and more as a count and the byte, others as they are; gives the length. */
    private static int packed(byte[] bytes, byte[] out) {
        int written = 0;
        int i = 0;
        while (i < bytes.length) {
            int run = 1;
            while (i + run < bytes.length && run < 127 && bytes[i + run] == bytes[i]) {
                run++;
            }
            if (run > 1) {
                out[written++] = (byte) -run;
                out[written++] = bytes[i];
                i += run;
            } else {
                int start = i;
                while (i < bytes.length && i - start < 127 && (i + 1 == bytes.length || bytes[i + 1] != bytes[i])) {
                    i++;
                }
                out[written++] = (byte) (i - start);
                for (int j = start; j < i; j++) {
                    out[written++] = bytes[j];
                }
            }
        }
        return written;
    }

    private static int unpacked(byte[] bytes, int length, byte[] out) {
        int written = 0;
        int i = 0;
        while (i < length) {
            int count = bytes[i++];
            if (count < 0) {
                byte value = bytes[i++];
                for (int j = 0; j < -count; j++) {
                    out[written++] = value;
                }
            } else {
                for (int j = 0; j < count; j++) {
                    out[written++] = bytes[i++];
                }
            }
        }
        return written;
    }

    private static void fill(byte[] bytes, int round) {
        long seed = round * 0x9e3779b97f4a7c15L + 1;
        int i = 0;
        while (i < bytes.length) {
            seed ^= seed << 13;
            seed ^= seed >>> 7;
            seed ^= seed << 17;
            int run = (seed & 3) == 0 ? (int) (seed >>> 40 & 31) : 1;
            byte value = (byte) (seed >>> 20);
            for (int j = 0; j < run && i < bytes.length; j++) {
                bytes[i++] = value;
            }
        }
    }

    public static void main(String[] arguments) {
        int size = 72;
        long[][] matrix = new long[size][size];
        for (int i = 0; i < size; i++) {
            for (int j = 0; j < size; j++) {
                matrix[i][j] = (i * 131L + j * 17L + 3) % PRIME;
            }
        }
        System.out.println(power(matrix, 1000000)[5][7]);
        Checksum checksum = new Checksum();
        byte[] bytes = new byte[20000];
        byte[] packed = new byte[2 * bytes.length];
        byte[] back = new byte[bytes.length];
        long lengths = 0;
        for (int round = 0; round < 160; round++) {
            fill(bytes, round);
            int length = packed(bytes, packed);
            checksum.add(packed, length);
            lengths += length;
            if (unpacked(packed, length, back) != bytes.length) {
                throw new IllegalStateException("length");
            }
            checksum.add(back, back.length);
        }
        System.out.println(lengths);
        System.out.println(checksum.value());
    }
}
