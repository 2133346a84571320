import java.util.ArrayList;
import java.util.Iterator;
import java.util.LinkedHashMap;
import java.util.List;
import java.util.Map;

/** A shopping cart: prices in cents, amounts by product, discounts as objects, and a bill. */
public class Main {
    static class Product {
        final String name;
        final int cents;

        Product(String name, int cents) {
            this.name = name;
            this.cents = cents;
        }

        @Override
        public boolean equals(Object other) {
            return other instanceof Product && name.equals(((Product) other).name);
        }

        @Override
        public int hashCode() {
            return name.hashCode();
        }
    }

    interface Discount {
        int cents(Product product, int amount);
    }

    static class EachThirdFree implements Discount {
        public int cents(Product product, int amount) {
            return amount / 3 * product.cents;
        }
    }

    static class Percent implements Discount {
        private final int percent;
        private final int least;

        Percent(int percent, int least) {
            this.percent = percent;
            this.least = least;
        }

        public int cents(Product product, int amount) {
            int price = product.cents * amount;
            return price < least ? 0 : (price * percent + 50) / 100;
        }
    }

    private final Map<Product, Integer> amounts = new LinkedHashMap<Product, Integer>();
    private final List<Discount> discounts = new ArrayList<Discount>();

    void add(Product product, int amount) {
        Integer before = amounts.get(product);
        amounts.put(product, (before == null ? 0 : before) + amount);
    }

    void removeBelow(int cents) {
        Iterator<Product> each = amounts.keySet().iterator();
        while (each.hasNext()) {
            if (each.next().cents < cents) {
                each.remove();
            }
        }
    }

    static String money(int cents) {
        return cents / 100 + "." + cents / 10 % 10 + cents % 10;
    }

    void bill() {
        int total = 0;
        for (Map.Entry<Product, Integer> entry : amounts.entrySet()) {
            Product product = entry.getKey();
            int amount = entry.getValue();
            int best = 0;
            for (Discount discount : discounts) {
                best = Math.max(best, discount.cents(product, amount));
            }
            int price = product.cents * amount - best;
            total += price;
            System.out.println("  " + amount + " " + product.name + " " + money(price) + (best > 0 ? ", saved " + money(best) : ""));
        }
        System.out.println("  total " + money(total));
    }

    public static void main(String[] args) {
        Main cart = new Main();
        cart.add(new Product("bread", 289), 1);
        cart.add(new Product("apples", 45), 7);
        cart.add(new Product("lamp", 4999), 1);
        cart.add(new Product("apples", 45), 2);
        cart.add(new Product("match", 5), 40);
        System.out.println("without discounts");
        cart.bill();
        cart.discounts.add(new EachThirdFree());
        cart.discounts.add(new Percent(10, 1000));
        System.out.println("with discounts");
        cart.bill();
        cart.removeBelow(50);
        System.out.println("without what is cheap");
        cart.bill();
    }
}
