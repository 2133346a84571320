import java.util.ArrayList;
import java.util.List;

/** What the boxes say of bits: numbers in other bases, ones, zeros, and Gray codes. */
public class Main {
    static String padded(String digits, int width) {
        StringBuilder padded = new StringBuilder();
        for (int i = digits.length(); i < width; i++) {
            padded.append('0');
        }
        return padded.append(digits).toString();
    }

    static List<Integer> gray(int bits) {
        List<Integer> codes = new ArrayList<Integer>();
        for (int number = 0; number < 1 << bits; number++) {
            codes.add(number ^ number >> 1);
        }
        return codes;
    }

    public static void main(String[] args) {
        int[] numbers = {0, 1, 10, 255, 256, 1000000, Integer.MAX_VALUE, Integer.MIN_VALUE, -1, -255};
        for (int number : numbers) {
            System.out.println(number + ": " + Integer.toBinaryString(number) + " " + Integer.toOctalString(number) + " " + Integer.toHexString(number)
                + " ones " + Integer.bitCount(number) + " lead " + Integer.numberOfLeadingZeros(number) + " trail " + Integer.numberOfTrailingZeros(number)
                + " high " + Integer.highestOneBit(number) + " low " + Integer.lowestOneBit(number));
        }
        for (long number : new long[] {1L << 40, -1L << 33, Long.MAX_VALUE, 6000000000L}) {
            System.out.println(number + ": " + Long.toHexString(number) + " " + Long.toString(number, 36) + " ones " + Long.bitCount(number)
                + " reversed " + Long.reverse(number));
        }
        StringBuilder line = new StringBuilder();
        int before = 0;
        for (int code : gray(4)) {
            line.append(padded(Integer.toBinaryString(code), 4)).append(Integer.bitCount(code ^ before) > 1 ? "! " : " ");
            before = code;
        }
        System.out.println(line.toString());
        System.out.println(Integer.rotateLeft(0x80000001, 4) + " " + Integer.rotateRight(1, 1) + " " + Integer.reverse(1) + " " + Integer.reverseBytes(0x01020304));
    }
}
