package java.util;

import java.io.Serializable;

/** Numbers as Java's Random has them for each seed. There is no clock, so those without a seed are the same in each run. */
public class Random implements Serializable {
    private static final long FACTOR = 0x5deece66dL;
    private static final long MASK = (1L << 48) - 1;
    private static long made = 0;

    private long seed;

    /** Makes a generator, each with another seed, in constant time. */
    public Random() {
        this(++made * 0x9e3779b97f4a7c15L);
    }

    /** Makes a generator with a seed, in constant time. */
    public Random(long seed) {
        this.seed = (seed ^ FACTOR) & MASK;
    }

    /** Begins anew with a seed, in constant time. */
    public void setSeed(long seed) {
        this.seed = (seed ^ FACTOR) & MASK;
    }

    /** Returns that many bits, at most 32, in constant time. */
    protected int next(int bits) {
        seed = seed * FACTOR + 0xb & MASK;
        return (int) (seed >>> 48 - bits);
    }

    /** Fills an array, in linear time. */
    public void nextBytes(byte[] bytes) {
        int four = 0;
        for (int index = 0; index < bytes.length; index++) {
            four = index % 4 == 0 ? nextInt() : four >> 8;
            bytes[index] = (byte) four;
        }
    }

    /** Returns any int, in constant time. */
    public int nextInt() {
        return next(32);
    }

    /** Returns a number from 0 to before the bound, or throws IllegalArgumentException where that isn't positive; constant time, as a rule. */
    public int nextInt(int bound) {
        if (bound <= 0) {
            throw new IllegalArgumentException("bound must be positive");
        }
        if ((bound & -bound) == bound) {
            return (int) (bound * (long) next(31) >> 31);
        }
        int bits = next(31);
        int value = bits % bound;
        while (bits - value + (bound - 1) < 0) {
            bits = next(31);
            value = bits % bound;
        }
        return value;
    }

    /** Returns one of 2^48 longs, in constant time. */
    public long nextLong() {
        return ((long) next(32) << 32) + next(32);
    }

    /** Returns true or false, in constant time. */
    public boolean nextBoolean() {
        return next(1) != 0;
    }
}
