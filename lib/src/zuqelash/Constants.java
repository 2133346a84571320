package zuqelash;

/** All constants of enums that were made, for those that look for them by their class. */
public final class Constants {
    private static Enum<?>[] all = new Enum<?>[8];
    private static int count;

    Constants() {
    }

    /** Notes a constant, in constant time on average. */
    public static void add(Enum<?> constant) {
        if (count == all.length) {
            Enum<?>[] larger = new Enum<?>[2 * count];
            for (int index = 0; index < count; index++) {
                larger[index] = all[index];
            }
            all = larger;
        }
        all[count++] = constant;
    }

    /** Reports whether a constant's class, or the one around its body, is that of another one, in the time of their names. */
    public static boolean isOf(Enum<?> constant, Enum<?> other) {
        return Names.named(constant.getClass().getName()).equals(Names.named(other.getClass().getName()));
    }

    /** Returns the class that declares a constant: its own, or where it has a body that of another one without, in the time of all constants. */
    public static Class<?> declaring(Enum<?> constant) {
        String name = Names.named(constant.getClass().getName());
        for (int index = 0; index < count; index++) {
            if (all[index].getClass().getName().equals(name)) {
                return all[index].getClass();
            }
        }
        return constant.getClass();
    }

    /** Makes an array of the constants of a class in their order, in the time of all constants. */
    public static Enum<?>[] of(Class<?> type) {
        String name = Names.named(type.getName());
        int found = 0;
        for (int index = 0; index < count; index++) {
            found += belongs(all[index], type, name) ? 1 : 0;
        }
        Enum<?>[] constants = new Enum<?>[found];
        for (int index = count - 1; index >= 0 && found > 0; index--) {
            if (belongs(all[index], type, name)) {
                constants[--found] = all[index];
            }
        }
        return constants;
    }

    private static boolean belongs(Enum<?> constant, Class<?> type, String name) {
        return constant.getClass() == type || Names.named(constant.getClass().getName()).equals(name);
    }
}
