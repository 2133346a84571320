package java.lang;

import java.io.Serializable;
import zuqelash.Constants;
import zuqelash.Names;

/** A constant of an enum. What are the constants of a class is known once that class has started, as each is noted when it is made. */
public abstract class Enum<E extends Enum<E>> implements Comparable<E>, Serializable {
    private final String name;
    private final int ordinal;

    /** Makes a constant and notes it, in constant time. */
    protected Enum(String name, int ordinal) {
        this.name = name;
        this.ordinal = ordinal;
        Constants.add(this);
    }

    /** Returns the name in the source, in constant time. */
    public final String name() {
        return name;
    }

    /** Returns how many constants of its class are before this, in constant time. */
    public final int ordinal() {
        return ordinal;
    }

    /** Returns the name, in constant time. */
    public String toString() {
        return name;
    }

    /** Reports whether it is the same constant, in constant time. */
    public final boolean equals(Object other) {
        return this == other;
    }

    /** Returns the object's number, in constant time. */
    public final int hashCode() {
        return super.hashCode();
    }

    /** Compares the places of two constants of a class, in the time of the classes' names where one of them has a body. */
    public final int compareTo(E other) {
        Enum<?> constant = other;
        if (getClass() != constant.getClass() && !Constants.isOf(constant, this)) {
            throw new ClassCastException();
        }
        return ordinal - constant.ordinal;
    }

    /** Returns the class that declares this: of a constant with a body that of another one that has none, in the time of all constants. */
    public final Class<E> getDeclaringClass() {
        return (Class<E>) Constants.declaring(this);
    }

    /** Looks for a constant by its name, in the time of all constants. The class has to have started, as by {@code values}. */
    public static <T extends Enum<T>> T valueOf(Class<T> type, String name) {
        String of = type.getName();
        if (name == null) {
            throw new NullPointerException("Name is null");
        }
        Enum<?>[] all = Constants.of(type);
        for (int index = 0; index < all.length; index++) {
            if (all[index].name.equals(name)) {
                return (T) all[index];
            }
        }
        StringBuilder message = new StringBuilder().append("No enum constant ").append(Names.canonical(of));
        throw new IllegalArgumentException(message.append('.').append(name).toString());
    }
}
