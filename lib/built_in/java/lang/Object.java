package java.lang;

/** What is built in of this class, for the compiler only: the bodies do nothing. */
public class Object {
    public Object() {
    }

    public native int hashCode();

    public native boolean equals(Object other);

    public native String toString();

    public final native Class<?> getClass();

    protected native Object clone() throws CloneNotSupportedException;
}
