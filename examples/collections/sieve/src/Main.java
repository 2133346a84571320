import java.util.BitSet;

/** The primes below a number, by the sieve of Eratosthenes in a bit set. */
public class Main {
    static BitSet primesBelow(int limit) {
        BitSet isPrime = new BitSet(limit);
        isPrime.set(2, limit);
        for (int prime = 2; prime * prime < limit; prime = isPrime.nextSetBit(prime + 1)) {
            for (int multiple = prime * prime; multiple < limit; multiple += prime) {
                isPrime.clear(multiple);
            }
        }
        return isPrime;
    }

    public static void main(String[] args) {
        BitSet few = primesBelow(100);
        StringBuilder line = new StringBuilder();
        for (int prime = few.nextSetBit(0); prime >= 0; prime = few.nextSetBit(prime + 1)) {
            line.append(prime).append(' ');
        }
        System.out.println(line.toString());
        for (int limit = 10; limit <= 100000; limit *= 10) {
            BitSet primes = primesBelow(limit);
            System.out.println(primes.cardinality() + " primes below " + limit + ", the last one is " + (primes.length() - 1));
        }
        BitSet many = primesBelow(1000);
        int twins = 0;
        for (int prime = many.nextSetBit(0); prime >= 0; prime = many.nextSetBit(prime + 1)) {
            if (many.get(prime + 2)) {
                twins++;
            }
        }
        System.out.println(twins + " pairs of twins below 1000");
        many.and(few);
        System.out.println(many.equals(few) ? "the same below 100" : "not the same");
    }
}
