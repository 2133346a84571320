package java.util;

import java.io.Serializable;
import zuqelash.Constants;

/**
 * A set of constants of an enum, in their order. The constants of a class are known once it has started, so {@code allOf} and
 * {@code complementOf} throw where it hasn't; {@code values} of the enum starts it.
 *
 * <p>What stays: an array with a place for each constant up to the last one that was added.
 */
public abstract class EnumSet<E extends Enum<E>> extends AbstractSet<E> implements Cloneable, Serializable {
    EnumSet() {
    }

    /** Makes an empty set, in constant time. */
    public static <E extends Enum<E>> EnumSet<E> noneOf(Class<E> type) {
        type.getName();
        return new Constant<E>(type);
    }

    /** Makes a set of all constants of a class, in the time of all constants of the program. */
    public static <E extends Enum<E>> EnumSet<E> allOf(Class<E> type) {
        Enum<?>[] all = Constants.of(type);
        if (all.length == 0) {
            throw new IllegalStateException(type.getName());
        }
        EnumSet<E> set = noneOf(type);
        for (int index = 0; index < all.length; index++) {
            set.add((E) all[index]);
        }
        return set;
    }

    /** Makes a set of the same constants, in linear time. */
    public static <E extends Enum<E>> EnumSet<E> copyOf(EnumSet<E> others) {
        return others.clone();
    }

    /** Makes a set of the constants of a collection that has some, or is a set of constants, in linear time. */
    public static <E extends Enum<E>> EnumSet<E> copyOf(Collection<E> others) {
        if (others instanceof EnumSet) {
            return ((EnumSet<E>) others).clone();
        }
        if (others.isEmpty()) {
            throw new IllegalArgumentException("Collection is empty");
        }
        EnumSet<E> set = noneOf(others.iterator().next().getDeclaringClass());
        set.addAll(others);
        return set;
    }

    /** Makes a set of the other constants of the class, in the time of all constants of the program. */
    public static <E extends Enum<E>> EnumSet<E> complementOf(EnumSet<E> others) {
        EnumSet<E> set = allOf(((Constant<E>) others).type);
        set.removeAll(others);
        return set;
    }

    /** Makes a set of a constant, in constant time. */
    public static <E extends Enum<E>> EnumSet<E> of(E one) {
        EnumSet<E> set = noneOf(one.getDeclaringClass());
        set.add(one);
        return set;
    }

    /** Makes a set of two constants, in constant time. */
    public static <E extends Enum<E>> EnumSet<E> of(E one, E two) {
        EnumSet<E> set = of(one);
        set.add(two);
        return set;
    }

    /** Makes a set of three constants, in constant time. */
    public static <E extends Enum<E>> EnumSet<E> of(E one, E two, E three) {
        EnumSet<E> set = of(one, two);
        set.add(three);
        return set;
    }

    /** Makes a set of four constants, in constant time. */
    public static <E extends Enum<E>> EnumSet<E> of(E one, E two, E three, E four) {
        EnumSet<E> set = of(one, two, three);
        set.add(four);
        return set;
    }

    /** Makes a set of five constants, in constant time. */
    public static <E extends Enum<E>> EnumSet<E> of(E one, E two, E three, E four, E five) {
        EnumSet<E> set = of(one, two, three, four);
        set.add(five);
        return set;
    }

    /** Makes a set of constants, in linear time. */
    public static <E extends Enum<E>> EnumSet<E> of(E one, E... others) {
        EnumSet<E> set = of(one);
        for (int index = 0; index < others.length; index++) {
            set.add(others[index]);
        }
        return set;
    }

    /** Makes a set of the constants from one up to another one, in the time of all constants of the program. */
    public static <E extends Enum<E>> EnumSet<E> range(E first, E last) {
        if (first.compareTo(last) > 0) {
            throw new IllegalArgumentException(new StringBuilder().append(first.toString()).append(" > ").append(last.toString()).toString());
        }
        Class<E> type = first.getDeclaringClass();
        EnumSet<E> set = noneOf(type);
        Enum<?>[] all = Constants.of(type);
        for (int index = first.ordinal(); index <= last.ordinal(); index++) {
            set.add((E) all[index]);
        }
        return set;
    }

    /** Makes a set of the same constants, in linear time. */
    public abstract EnumSet<E> clone();

    /** The only kind of these sets. */
    private static final class Constant<E extends Enum<E>> extends EnumSet<E> {
        private static final int FEW = 8;

        private final Class<E> type;
        private Object[] places = new Object[FEW];
        private int size;

        Constant(Class<E> type) {
            this.type = type;
        }

        public int size() {
            return size;
        }

        public boolean contains(Object element) {
            if (!(element instanceof Enum)) {
                return false;
            }
            int place = ((Enum<?>) element).ordinal();
            return place < places.length && places[place] == element;
        }

        public boolean add(E element) {
            int place = element.ordinal();
            if (place >= places.length) {
                Object[] larger = new Object[place < 2 * places.length ? 2 * places.length : place + 1];
                for (int index = 0; index < places.length; index++) {
                    larger[index] = places[index];
                }
                places = larger;
            }
            boolean isNew = places[place] == null;
            size += isNew ? 1 : 0;
            places[place] = element;
            return isNew;
        }

        public boolean remove(Object element) {
            boolean isThere = contains(element);
            if (isThere) {
                places[((Enum<?>) element).ordinal()] = null;
                size--;
            }
            return isThere;
        }

        public void clear() {
            places = new Object[FEW];
            size = 0;
        }

        public EnumSet<E> clone() {
            EnumSet<E> copy = new Constant<E>(type);
            copy.addAll(this);
            return copy;
        }

        public Iterator<E> iterator() {
            return new Walk<E>(this);
        }

        private static final class Walk<E extends Enum<E>> implements Iterator<E> {
            private final Constant<E> set;
            private int next;
            private Object last;

            Walk(Constant<E> set) {
                this.set = set;
            }

            public boolean hasNext() {
                while (next < set.places.length && set.places[next] == null) {
                    next++;
                }
                return next < set.places.length;
            }

            public E next() {
                if (!hasNext()) {
                    throw new NoSuchElementException();
                }
                last = set.places[next++];
                return (E) last;
            }

            public void remove() {
                if (last == null) {
                    throw new IllegalStateException();
                }
                set.remove(last);
                last = null;
            }
        }
    }
}
