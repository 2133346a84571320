package java.util;

/** What sets have in common: a class adds {@code size} and {@code iterator}, and {@code add} where it can grow. */
public abstract class AbstractSet<E> extends AbstractCollection<E> implements Set<E> {
    /** Makes a set, in constant time. */
    protected AbstractSet() {
    }

    /** Asks {@code contains} for each element of the other set, where their sizes are equal. */
    public boolean equals(Object other) {
        if (other == this) {
            return true;
        }
        if (!(other instanceof Set)) {
            return false;
        }
        Set<?> set = (Set<?>) other;
        return set.size() == size() && containsAll(set);
    }

    /** Adds the elements' hashes, in their time. */
    public int hashCode() {
        int hash = 0;
        for (E each : this) {
            hash += Objects.hashCode(each);
        }
        return hash;
    }

    /** Removes what the other collection contains: one question for each element of the smaller of the two. */
    public boolean removeAll(Collection<?> others) {
        if (size() <= others.size()) {
            return super.removeAll(others);
        }
        boolean isChanged = false;
        for (Object each : others) {
            if (remove(each)) {
                isChanged = true;
            }
        }
        return isChanged;
    }
}
