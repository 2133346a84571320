import java.util.Arrays;

/** Fractions, which never change. */
public final class Main implements Comparable<Main> {
    public static final Main ZERO = new Main(0, 1);

    private final long over;
    private final long under;

    public Main(long over, long under) {
        if (under == 0) {
            throw new ArithmeticException(over + "/0");
        }
        long divisor = gcd(Math.abs(over), Math.abs(under));
        int sign = under < 0 ? -1 : 1;
        this.over = sign * over / divisor;
        this.under = sign * under / divisor;
    }

    private static long gcd(long a, long b) {
        return b == 0 ? a : gcd(b, a % b);
    }

    public static Main parse(String text) {
        int at = text.indexOf('/');
        return at < 0 ? new Main(Long.parseLong(text), 1) : new Main(Long.parseLong(text.substring(0, at)), Long.parseLong(text.substring(at + 1)));
    }

    public Main plus(Main other) {
        return new Main(over * other.under + other.over * under, under * other.under);
    }

    public Main times(Main other) {
        return new Main(over * other.over, under * other.under);
    }

    public int compareTo(Main other) {
        long left = over * other.under;
        long right = other.over * under;
        return left < right ? -1 : left > right ? 1 : 0;
    }

    @Override
    public boolean equals(Object other) {
        return other instanceof Main && over == ((Main) other).over && under == ((Main) other).under;
    }

    @Override
    public int hashCode() {
        return (int) (31 * over + under);
    }

    @Override
    public String toString() {
        return under == 1 ? "" + over : over + "/" + under;
    }

    public static void main(String[] args) {
        Main sum = ZERO;
        for (int i = 1; i <= 10; i++) {
            sum = sum.plus(new Main(1, i));
        }
        System.out.println(sum + " " + sum.times(parse("-2520/7381")));
        Main[] all = {parse("3/4"), parse("-1/2"), parse("5"), parse("2/3"), parse("6/-8")};
        Arrays.sort(all);
        System.out.println(Arrays.toString(all) + " " + parse("2/4").equals(parse("1/2")));
        try {
            parse("1/0");
        } catch (ArithmeticException e) {
            System.out.println(e.getMessage());
        }
    }
}
