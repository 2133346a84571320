import java.util.BitSet;

/** Primes by a sieve of bits. */
public class Main {
    public static void main(String[] args) {
        int limit = 1000;
        BitSet composite = new BitSet(limit);
        int count = 0;
        StringBuilder last = new StringBuilder();
        for (int i = 2; i < limit; i = composite.nextClearBit(i + 1)) {
            count++;
            if (i > 950) {
                last.append(' ').append(i);
            }
            for (int multiple = i * i; multiple < limit; multiple += i) {
                composite.set(multiple);
            }
        }
        System.out.println(count + " primes below " + limit + ", the last ones:" + last.toString());
    }
}
