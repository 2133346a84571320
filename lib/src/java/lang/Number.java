package java.lang;

import java.io.Serializable;

/** A number as an object. There are no floats and doubles, so neither are {@code floatValue} and {@code doubleValue}. */
public abstract class Number implements Serializable {
    /** Makes a number, in constant time. */
    public Number() {
    }

    /** Returns the lowest 32 bits, in constant time. */
    public abstract int intValue();

    /** Returns the number as a long, in constant time. */
    public abstract long longValue();

    /** Returns the lowest 8 bits, in constant time. */
    public byte byteValue() {
        return (byte) intValue();
    }

    /** Returns the lowest 16 bits, in constant time. */
    public short shortValue() {
        return (short) intValue();
    }
}
