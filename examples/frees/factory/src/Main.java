/** A factory method makes an object that lives for one turn of the loop: the call is a site, and its object is freed in each turn. */
public class Main {
    static class Fraction {
        final int over, under;

        Fraction(int over, int under) {
            this.over = over;
            this.under = under;
        }

        static Fraction of(int over, int under) {
            int a = over, b = under;
            while (b != 0) {
                int rest = a % b;
                a = b;
                b = rest;
            }
            return new Fraction(over / a, under / a);
        }

        boolean isWhole() {
            return under == 1;
        }
    }

    public static void main(String[] args) {
        int whole = 0;
        for (int n = 1; n <= 1000; n++) {
            Fraction fraction = Fraction.of(5040, n);
            if (fraction.isWhole()) {
                whole++;
            }
        }
        System.out.println(whole + " of the first thousand divide 5040");
    }
}
