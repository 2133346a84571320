package java.lang;

/** Operations on ints and longs. Those of doubles aren't here, as there are none. Each takes constant time. */
public final class Math {
    Math() {
    }

    /** Returns the number without its sign, but the least number as it is. */
    public static int abs(int value) {
        return value < 0 ? -value : value;
    }

    /** Returns the number without its sign, but the least number as it is. */
    public static long abs(long value) {
        return value < 0 ? -value : value;
    }

    /** Returns the greater number. */
    public static int max(int one, int other) {
        return one >= other ? one : other;
    }

    /** Returns the greater number. */
    public static long max(long one, long other) {
        return one >= other ? one : other;
    }

    /** Returns the lesser number. */
    public static int min(int one, int other) {
        return one <= other ? one : other;
    }

    /** Returns the lesser number. */
    public static long min(long one, long other) {
        return one <= other ? one : other;
    }

    /** Adds, or throws ArithmeticException where the sum is no int. */
    public static int addExact(int one, int other) {
        return toInt((long) one + other);
    }

    /** Adds, or throws ArithmeticException where the sum is no long. */
    public static long addExact(long one, long other) {
        long sum = one + other;
        if (((one ^ sum) & (other ^ sum)) < 0) {
            throw new ArithmeticException("long overflow");
        }
        return sum;
    }

    /** Subtracts, or throws ArithmeticException where the difference is no int. */
    public static int subtractExact(int one, int other) {
        return toInt((long) one - other);
    }

    /** Subtracts, or throws ArithmeticException where the difference is no long. */
    public static long subtractExact(long one, long other) {
        long difference = one - other;
        if (((one ^ other) & (one ^ difference)) < 0) {
            throw new ArithmeticException("long overflow");
        }
        return difference;
    }

    /** Multiplies, or throws ArithmeticException where the product is no int. */
    public static int multiplyExact(int one, int other) {
        return toInt((long) one * other);
    }

    /** Multiplies, or throws ArithmeticException where the product is no long. */
    public static long multiplyExact(long one, long other) {
        long product = one * other;
        if (other != 0 && product / other != one || other == -1 && one == Long.MIN_VALUE) {
            throw new ArithmeticException("long overflow");
        }
        return product;
    }

    /** Adds one, or throws ArithmeticException at the greatest int. */
    public static int incrementExact(int value) {
        return toInt(value + 1L);
    }

    /** Subtracts one, or throws ArithmeticException at the least int. */
    public static int decrementExact(int value) {
        return toInt(value - 1L);
    }

    /** Returns the number with the other sign, or throws ArithmeticException at the least int. */
    public static int negateExact(int value) {
        return toInt(-(long) value);
    }

    /** Adds one, or throws ArithmeticException at the greatest long. */
    public static long incrementExact(long value) {
        return addExact(value, 1L);
    }

    /** Subtracts one, or throws ArithmeticException at the least long. */
    public static long decrementExact(long value) {
        return subtractExact(value, 1L);
    }

    /** Returns the number with the other sign, or throws ArithmeticException at the least long. */
    public static long negateExact(long value) {
        return subtractExact(0L, value);
    }

    /** Returns the long as an int, or throws ArithmeticException where it is none. */
    public static int toIntExact(long value) {
        return toInt(value);
    }

    private static int toInt(long value) {
        if ((int) value != value) {
            throw new ArithmeticException("integer overflow");
        }
        return (int) value;
    }

    /** Divides and rounds down. */
    public static int floorDiv(int dividend, int divisor) {
        int quotient = dividend / divisor;
        return (dividend ^ divisor) < 0 && quotient * divisor != dividend ? quotient - 1 : quotient;
    }

    /** Divides and rounds down. */
    public static long floorDiv(long dividend, long divisor) {
        long quotient = dividend / divisor;
        return (dividend ^ divisor) < 0 && quotient * divisor != dividend ? quotient - 1 : quotient;
    }

    /** Returns the remainder of a division that rounds down, which has the sign of the divisor. */
    public static int floorMod(int dividend, int divisor) {
        int rest = dividend % divisor;
        return (rest ^ divisor) < 0 && rest != 0 ? rest + divisor : rest;
    }

    /** Returns the remainder of a division that rounds down, which has the sign of the divisor. */
    public static long floorMod(long dividend, long divisor) {
        long rest = dividend % divisor;
        return (rest ^ divisor) < 0 && rest != 0 ? rest + divisor : rest;
    }
}
