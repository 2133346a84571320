/** Stands in for the built-in class where the written files run on another Java virtual machine: nothing is freed by hand there. */
public final class FreeMe {
    private FreeMe() {
    }

    /** Does nothing: a collector frees the object when nothing leads to it any more. */
    public static void free(Object object) {
    }

    /** Answers the chain as it is: nothing is put before it, so that it keeps nothing. */
    public static Object link(Object object, Object chain) {
        return chain;
    }

    /** Does nothing, as {@link #free} does. */
    public static void freeChain(Object object) {
    }
}
