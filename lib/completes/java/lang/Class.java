package java.lang;

/** What a class has besides what is built in. */
public final class Class<T> implements java.io.Serializable {
    Class() {
    }

    public native String getName();

    /** Returns false: asserts aren't looked at. */
    public boolean desiredAssertionStatus() {
        return false;
    }

    /** Reports whether it is a class of arrays, in constant time but for the name, which is made. */
    public boolean isArray() {
        return getName().charAt(0) == '[';
    }

    /** Returns the name without its package and the classes around it, in linear time. A {@code $} in it is taken for one between two classes. */
    public String getSimpleName() {
        String name = getName();
        int depth = 0;
        while (depth < name.length() && name.charAt(depth) == '[') {
            depth++;
        }
        if (depth == 0) {
            return zuqelash.Names.simple(name, 0, name.length());
        }
        StringBuilder text = new StringBuilder().append(zuqelash.Names.element(name, depth));
        for (int index = 0; index < depth; index++) {
            text.append("[]");
        }
        return text.toString();
    }

    /** Returns the name behind {@code class}: of an interface too, as it isn't known which classes are some. */
    public String toString() {
        return new StringBuilder().append("class ").append(getName()).toString();
    }
}
