import java.util.Collections;
import java.util.Map;
import java.util.TreeMap;

/** Polynomials as maps from exponents to factors: sums, products, derivatives and values. */
public class Main {
    private final Map<Integer, Long> terms = new TreeMap<Integer, Long>(Collections.<Integer>reverseOrder());

    Main plus(long factor, int exponent) {
        Long before = terms.get(exponent);
        long sum = factor + (before == null ? 0 : before);
        if (sum == 0) {
            terms.remove(exponent);
        } else {
            terms.put(exponent, sum);
        }
        return this;
    }

    Main times(Main other) {
        Main product = new Main();
        for (Map.Entry<Integer, Long> one : terms.entrySet()) {
            for (Map.Entry<Integer, Long> two : other.terms.entrySet()) {
                product.plus(one.getValue() * two.getValue(), one.getKey() + two.getKey());
            }
        }
        return product;
    }

    Main derivative() {
        Main derivative = new Main();
        for (int exponent : terms.keySet()) {
            derivative.plus(terms.get(exponent) * exponent, exponent - 1);
        }
        return derivative;
    }

    long at(long x) {
        long value = 0;
        for (Map.Entry<Integer, Long> term : terms.entrySet()) {
            long power = 1;
            for (int i = 0; i < term.getKey(); i++) {
                power *= x;
            }
            value += term.getValue() * power;
        }
        return value;
    }

    @Override
    public String toString() {
        StringBuilder text = new StringBuilder();
        for (Map.Entry<Integer, Long> term : terms.entrySet()) {
            long factor = term.getValue();
            int exponent = term.getKey();
            text.append(factor < 0 ? " - " : text.length() > 0 ? " + " : "");
            if (Math.abs(factor) != 1 || exponent == 0) {
                text.append(Math.abs(factor));
            }
            text.append(exponent == 0 ? "" : exponent == 1 ? "x" : "x^" + exponent);
        }
        return text.length() == 0 ? "0" : text.toString();
    }

    public static void main(String[] args) {
        Main line = new Main().plus(1, 1).plus(-1, 0);
        Main other = new Main().plus(2, 2).plus(3, 0);
        System.out.println("(" + line.toString() + ") * (" + other.toString() + ") = " + line.times(other).toString());
        Main power = new Main().plus(1, 0);
        for (int i = 1; i <= 8; i++) {
            power = power.times(line);
            System.out.println("power " + i + ": " + power.toString());
        }
        System.out.println("derivative: " + power.derivative().toString());
        System.out.println("at 3: " + power.at(3) + ", at -2: " + power.at(-2) + ", at 1: " + power.at(1));
        Main zero = new Main().plus(5, 3).plus(-5, 3);
        System.out.println(zero.toString() + " " + zero.derivative().toString() + " " + zero.times(power).toString());
    }
}
