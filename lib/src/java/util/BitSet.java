package java.util;

import java.io.Serializable;
import zuqelash.Texts;

/**
 * Bits in longs, as many as are needed.
 *
 * <p>What stays: the array of longs, and each array that it grew out of.
 */
public class BitSet implements Cloneable, Serializable {
    private static final int BITS = 64;
    private static final int BYTES = 8;

    private long[] words;

    /** Makes a set of no bits with room for sixty-four, in constant time. */
    public BitSet() {
        words = new long[1];
    }

    /** Makes a set of no bits with room for {@code count}, in their time. */
    public BitSet(int count) {
        if (count < 0) {
            throw new NegativeArraySizeException(new StringBuilder().append("nbits < 0: ").append(count).toString());
        }
        words = new long[(count + BITS - 1) / BITS];
    }

    /** Returns how many longs there are up to the last one that isn't zero. */
    private static int used(long[] words) {
        int count = words.length;
        while (count > 0 && words[count - 1] == 0) {
            count--;
        }
        return count;
    }

    /** Makes a set of the bits of longs, from the lowest bit of the first one on, in their time. */
    public static BitSet valueOf(long[] words) {
        BitSet set = new BitSet(0);
        set.words = Arrays.copyOf(words, used(words));
        return set;
    }

    /** Makes a set of the bits of bytes, from the lowest bit of the first one on, in their time. */
    public static BitSet valueOf(byte[] bytes) {
        long[] words = new long[bytes.length / BYTES + 1];
        for (int index = 0; index < bytes.length; index++) {
            words[index / BYTES] |= (bytes[index] & 0xffL) << 8 * index;
        }
        return valueOf(words);
    }

    /** Returns the bits in longs, as few as there have to be, in their time. */
    public long[] toLongArray() {
        return Arrays.copyOf(words, used(words));
    }

    /** Returns the bits in bytes, as few as there have to be, in their time. */
    public byte[] toByteArray() {
        int count = used(words);
        byte[] bytes = new byte[count == 0 ? 0 : BYTES * count - Long.numberOfLeadingZeros(words[count - 1]) / 8];
        for (int index = 0; index < bytes.length; index++) {
            bytes[index] = (byte) (words[index / BYTES] >>> 8 * index);
        }
        return bytes;
    }

    private static void checkIndex(String name, int index) {
        if (index < 0) {
            throw new IndexOutOfBoundsException(new StringBuilder().append(name).append(" < 0: ").append(index).toString());
        }
    }

    private static void checkPart(int start, int end) {
        checkIndex("fromIndex", start);
        checkIndex("toIndex", end);
        if (start > end) {
            StringBuilder message = new StringBuilder().append("fromIndex: ").append(start);
            throw new IndexOutOfBoundsException(message.append(" > toIndex: ").append(end).toString());
        }
    }

    private long word(int place) {
        return place < words.length ? words[place] : 0;
    }

    /** Makes room for the bits up to an index. */
    private void makeRoom(int index) {
        int needed = index / BITS + 1;
        if (needed > words.length) {
            words = Arrays.copyOf(words, Math.max(2 * words.length, needed));
        }
    }

    /** Returns those bits of a word that are in a part. */
    private static long mask(int place, int start, int end) {
        long mask = -1L;
        if (place == start / BITS) {
            mask &= -1L << start;
        }
        if (place == end / BITS) {
            mask &= ~(-1L << end);
        }
        return mask;
    }

    /** Reports whether a bit is set, in constant time. */
    public boolean get(int index) {
        checkIndex("bitIndex", index);
        return (word(index / BITS) >>> index & 1) != 0;
    }

    /** Makes a set of the bits of a part, moved to 0, in their time. */
    public BitSet get(int start, int end) {
        checkPart(start, end);
        BitSet part = new BitSet();
        for (int index = nextSetBit(start); index >= 0 && index < end; index = nextSetBit(index + 1)) {
            part.set(index - start);
        }
        return part;
    }

    /** Sets a bit, in constant time but where the array grows. */
    public void set(int index) {
        checkIndex("bitIndex", index);
        makeRoom(index);
        words[index / BITS] |= 1L << index;
    }

    /** Sets or clears a bit, in constant time but where the array grows. */
    public void set(int index, boolean value) {
        if (value) {
            set(index);
        } else {
            clear(index);
        }
    }

    /** Sets the bits of a part, in the time of its words. */
    public void set(int start, int end) {
        checkPart(start, end);
        if (start < end) {
            makeRoom(end - 1);
        }
        for (int place = start / BITS; place <= end / BITS && place < words.length; place++) {
            words[place] |= mask(place, start, end);
        }
    }

    /** Sets or clears the bits of a part, in the time of its words. */
    public void set(int start, int end, boolean value) {
        if (value) {
            set(start, end);
        } else {
            clear(start, end);
        }
    }

    /** Clears a bit, in constant time. */
    public void clear(int index) {
        checkIndex("bitIndex", index);
        if (index / BITS < words.length) {
            words[index / BITS] &= ~(1L << index);
        }
    }

    /** Clears the bits of a part, in the time of its words. */
    public void clear(int start, int end) {
        checkPart(start, end);
        for (int place = start / BITS; place <= end / BITS && place < words.length; place++) {
            words[place] &= ~mask(place, start, end);
        }
    }

    /** Clears all bits, in the time of the words. */
    public void clear() {
        Arrays.fill(words, 0);
    }

    /** Changes a bit to the opposite, in constant time but where the array grows. */
    public void flip(int index) {
        checkIndex("bitIndex", index);
        makeRoom(index);
        words[index / BITS] ^= 1L << index;
    }

    /** Changes the bits of a part to the opposite, in the time of its words. */
    public void flip(int start, int end) {
        checkPart(start, end);
        if (start < end) {
            makeRoom(end - 1);
        }
        for (int place = start / BITS; place <= end / BITS && place < words.length; place++) {
            words[place] ^= mask(place, start, end);
        }
    }

    /** Returns the next set bit from an index on, or -1, in the time of the words between. */
    public int nextSetBit(int start) {
        checkIndex("fromIndex", start);
        long word = word(start / BITS) & -1L << start;
        for (int place = start / BITS; place < words.length; word = word(++place)) {
            if (word != 0) {
                return place * BITS + Long.numberOfTrailingZeros(word);
            }
        }
        return -1;
    }

    /** Returns the next clear bit from an index on, in the time of the words between. */
    public int nextClearBit(int start) {
        checkIndex("fromIndex", start);
        int place = start / BITS;
        long word = ~word(place) & -1L << start;
        while (word == 0) {
            word = ~word(++place);
        }
        return place * BITS + Long.numberOfTrailingZeros(word);
    }

    private static void checkLast(int index) {
        if (index < -1) {
            throw new IndexOutOfBoundsException(new StringBuilder().append("fromIndex < -1: ").append(index).toString());
        }
    }

    /** Returns the bits of a word that are before or at an index. */
    private static long maskTo(int place, int index) {
        return place == index / BITS ? -1L >>> ~index : -1L;
    }

    private static int highest(int place, long word) {
        return place * BITS + BITS - 1 - Long.numberOfLeadingZeros(word);
    }

    /** Returns the set bit before or at an index, or -1, in the time of the words between. */
    public int previousSetBit(int start) {
        checkLast(start);
        for (int place = start < 0 ? -1 : Math.min(start / BITS, words.length - 1); place >= 0; place--) {
            long word = words[place] & maskTo(place, start);
            if (word != 0) {
                return highest(place, word);
            }
        }
        return -1;
    }

    /** Returns the clear bit before or at an index, or -1, in the time of the words between. */
    public int previousClearBit(int start) {
        checkLast(start);
        for (int place = start < 0 ? -1 : start / BITS; place >= 0; place--) {
            long word = ~word(place) & maskTo(place, start);
            if (word != 0) {
                return highest(place, word);
            }
        }
        return -1;
    }

    /** Returns one more than the highest set bit, or 0, in the time of the words above it. */
    public int length() {
        int count = used(words);
        return count == 0 ? 0 : count * BITS - Long.numberOfLeadingZeros(words[count - 1]);
    }

    /** Returns for how many bits there is room, in constant time. */
    public int size() {
        return words.length * BITS;
    }

    /** Counts the set bits, in the time of the words. */
    public int cardinality() {
        int count = 0;
        for (long word : words) {
            count += Long.bitCount(word);
        }
        return count;
    }

    /** Reports whether no bit is set, in the time of the words. */
    public boolean isEmpty() {
        return length() == 0;
    }

    /** Reports whether a bit is set in both, in the time of the words. */
    public boolean intersects(BitSet other) {
        for (int place = 0; place < words.length; place++) {
            if ((words[place] & other.word(place)) != 0) {
                return true;
            }
        }
        return false;
    }

    /** Keeps the bits that are set in both, in the time of the words. */
    public void and(BitSet other) {
        for (int place = 0; place < words.length; place++) {
            words[place] &= other.word(place);
        }
    }

    /** Clears the bits that are set in the other, in the time of the words. */
    public void andNot(BitSet other) {
        for (int place = 0; place < words.length; place++) {
            words[place] &= ~other.word(place);
        }
    }

    /** Sets the bits that are set in the other, in the time of the words. */
    public void or(BitSet other) {
        if (other.length() > 0) {
            makeRoom(other.length() - 1);
        }
        for (int place = 0; place < words.length; place++) {
            words[place] |= other.word(place);
        }
    }

    /** Keeps the bits that are set in just one, in the time of the words. */
    public void xor(BitSet other) {
        if (other.length() > 0) {
            makeRoom(other.length() - 1);
        }
        for (int place = 0; place < words.length; place++) {
            words[place] ^= other.word(place);
        }
    }

    /** Makes a set of the same bits, in the time of the words. */
    public Object clone() {
        BitSet copy = new BitSet(size());
        copy.or(this);
        return copy;
    }

    /** Reports whether the other object is a BitSet of the same bits, in the time of the words. */
    public boolean equals(Object other) {
        if (!(other instanceof BitSet)) {
            return false;
        }
        BitSet set = (BitSet) other;
        for (int place = Math.max(words.length, set.words.length) - 1; place >= 0; place--) {
            if (word(place) != set.word(place)) {
                return false;
            }
        }
        return true;
    }

    /** Returns Java's hash of the bits, in the time of the words. */
    public int hashCode() {
        long hash = 1234;
        for (int place = words.length - 1; place >= 0; place--) {
            hash ^= words[place] * (place + 1);
        }
        return (int) (hash >> 32 ^ hash);
    }

    /** Returns the set bits in braces, with commas between them, in the time of the bits and of the text. */
    public String toString() {
        long[] bits = new long[cardinality()];
        int count = 0;
        for (int index = nextSetBit(0); index >= 0; index = nextSetBit(index + 1)) {
            bits[count++] = index;
        }
        return Texts.listed('{', bits, '}');
    }
}
