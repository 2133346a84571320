import java.util.BitSet;
import java.util.Random;
import java.util.Scanner;
import java.util.StringTokenizer;

/** Many random steps on bit sets, random numbers of each kind, boxes from texts and back, and random texts in pieces. */
public class Main {
    private static final String LETTERS = "ab 1-2+,\t\n.;09xX#F";
    private final Random random;
    private long sum;

    Main(long seed) {
        random = new Random(seed);
    }

    void note(long value) {
        sum = sum * 31 + value;
    }

    void note(boolean value) {
        note(value ? 1 : 2);
    }

    void step(BitSet bits, BitSet other) {
        int place = random.nextInt(150);
        int end = place + random.nextInt(90);
        switch (random.nextInt(14)) {
            case 0:
                bits.set(place);
                break;
            case 1:
                bits.clear(place);
                break;
            case 2:
                bits.flip(place);
                break;
            case 3:
                bits.set(place, end);
                break;
            case 4:
                bits.clear(place, end);
                break;
            case 5:
                bits.flip(place, end);
                break;
            case 6:
                bits.set(place, random.nextBoolean());
                bits.set(place, end, random.nextBoolean());
                break;
            case 7:
                bits.and(other);
                break;
            case 8:
                bits.or(other);
                break;
            case 9:
                bits.xor(other);
                break;
            case 10:
                bits.andNot(other);
                break;
            case 11:
                note(bits.get(place, end).hashCode());
                break;
            case 12:
                note(bits.intersects(other));
                note(bits.equals(other));
                break;
            default:
                note(bits.nextSetBit(place));
                note(bits.nextClearBit(place));
                note(bits.get(place));
        }
        note(bits.cardinality());
        note(bits.length());
        note(bits.size());
        note(bits.hashCode());
    }

    void numbers() {
        byte[] bytes = new byte[random.nextInt(9)];
        random.nextBytes(bytes);
        for (byte each : bytes) {
            note(each);
        }
        note(random.nextInt());
        note(random.nextInt(1 + random.nextInt(1 << 20)));
        note(random.nextInt(1 << random.nextInt(30)));
        note(random.nextLong());
        note(random.nextBoolean());
        int radix = 2 + random.nextInt(35);
        long number = random.nextLong() >> random.nextInt(64);
        String text = Long.toString(number, radix);
        note(text.hashCode());
        note(Long.parseLong(text, radix) == number);
        note(Integer.toString((int) number, radix).hashCode());
        note(Integer.parseInt(Integer.toString((int) number, radix), radix) == (int) number);
        note(Integer.toHexString((int) number).hashCode() + Integer.toOctalString((int) number).hashCode() + Integer.toBinaryString((int) number).hashCode());
        note(Long.toHexString(number).hashCode() + Long.toOctalString(number).hashCode() + Long.toBinaryString(number).hashCode());
        note(Long.numberOfLeadingZeros(number) + Long.numberOfTrailingZeros(number) + Long.bitCount(number) + Integer.numberOfLeadingZeros((int) number));
        note(Long.reverse(number) ^ Long.reverseBytes(number) ^ Long.rotateLeft(number, radix) ^ Long.highestOneBit(number) ^ Long.lowestOneBit(number));
        note(Integer.reverse((int) number) ^ Integer.reverseBytes((int) number) ^ Integer.rotateRight((int) number, radix) ^ Integer.highestOneBit((int) number));
        note(Integer.toUnsignedString((int) number).hashCode() + Integer.divideUnsigned((int) number, radix) + Integer.remainderUnsigned((int) number, -radix));
        note(Math.floorMod(number, (long) radix) + Math.floorDiv(number, (long) -radix) + Math.floorMod((int) number, -radix));
    }

    String text() {
        StringBuilder text = new StringBuilder();
        for (int i = random.nextInt(14); i > 0; i--) {
            text.append(LETTERS.charAt(random.nextInt(LETTERS.length())));
        }
        return text.toString();
    }

    void pieces() {
        String text = text();
        StringTokenizer tokens = new StringTokenizer(text, ",; a", random.nextBoolean());
        note(tokens.countTokens());
        while (tokens.hasMoreTokens()) {
            note(tokens.nextToken().hashCode());
        }
        Scanner scanner = new Scanner(text);
        while (scanner.hasNext()) {
            note(scanner.hasNextInt() ? scanner.nextInt() : scanner.next().hashCode());
        }
        Scanner lines = new Scanner(text);
        while (lines.hasNextLine()) {
            note(lines.nextLine().hashCode());
        }
        try {
            note(Integer.parseInt(text));
        } catch (NumberFormatException e) {
            note(e.getMessage().hashCode());
        }
        try {
            note(Long.decode(text));
        } catch (NumberFormatException e) {
            note(-9);
        }
    }

    public static void main(String[] args) {
        for (int seed = 1; seed <= 5; seed++) {
            Main main = new Main(seed * 1000003L);
            BitSet bits = new BitSet();
            BitSet other = new BitSet(70);
            for (int i = 0; i < 200; i++) {
                main.step(bits, other);
                main.step(other, bits);
                main.numbers();
                main.pieces();
                if (i % 40 == 39) {
                    System.out.println(seed + "/" + i + ": " + main.sum + " " + bits.cardinality() + " " + other.toString());
                }
            }
        }
    }
}
