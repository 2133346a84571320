/** Pays amounts with few coins, which are an enum with a value each. */
public class Main {
    enum Coin {
        QUARTER(25), DIME(10), NICKEL(5), PENNY(1);

        private final int cents;

        Coin(int cents) {
            this.cents = cents;
        }

        int cents() {
            return cents;
        }
    }

    static String pay(int amount) {
        StringBuilder text = new StringBuilder();
        for (Coin coin : Coin.values()) {
            int count = amount / coin.cents();
            amount %= coin.cents();
            if (count > 0) {
                text.append(text.length() == 0 ? "" : ", ").append(count).append(' ').append(coin);
            }
        }
        return text.toString();
    }

    public static void main(String[] args) {
        int[] amounts = {1, 41, 99, 250};
        for (int amount : amounts) {
            System.out.println(amount + ": " + pay(amount));
        }
        System.out.println(Coin.valueOf("DIME").cents() + " " + Coin.PENNY.ordinal() + " " + Coin.values().length);
    }
}
