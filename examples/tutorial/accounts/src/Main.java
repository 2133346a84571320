import java.util.HashMap;
import java.util.Map;

/** Accounts, and exceptions of one's own. */
public class Main {
    static class NoMoney extends Exception {
        NoMoney(String who, int missing) {
            super(who + " has " + missing + " too little");
        }
    }

    static class Bank {
        private final Map<String, Integer> balances = new HashMap<String, Integer>();

        void pay(String who, int amount) {
            if (amount <= 0) {
                throw new IllegalArgumentException("amount " + amount);
            }
            Integer old = balances.get(who);
            balances.put(who, (old == null ? 0 : old) + amount);
        }

        void take(String who, int amount) throws NoMoney {
            int balance = balances.containsKey(who) ? balances.get(who) : 0;
            if (balance < amount) {
                throw new NoMoney(who, amount - balance);
            }
            balances.put(who, balance - amount);
        }
    }

    public static void main(String[] args) {
        Bank bank = new Bank();
        bank.pay("Ada", 100);
        bank.pay("Bob", 50);
        int[] amounts = {30, 80, 20};
        for (int amount : amounts) {
            try {
                bank.take("Ada", amount);
                bank.pay("Bob", amount);
                System.out.println("moved " + amount);
            } catch (NoMoney e) {
                System.out.println(e.getMessage());
            } finally {
                System.out.println(bank.balances.toString());
            }
        }
        try {
            bank.pay("Bob", -1);
        } catch (IllegalArgumentException e) {
            System.out.println(e.toString());
        }
    }
}
