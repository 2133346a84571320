package java.util;

/** A list that finds an element by its index in constant time. */
public interface RandomAccess {
}
