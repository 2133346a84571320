import java.util.HashMap;
import java.util.Iterator;
import java.util.Map;
import java.util.SortedMap;
import java.util.TreeMap;

/** A vending machine: coins in a sorted map, change with the fewest coins that are there, and errors as exceptions. */
public class Main {
    static class NoChangeException extends Exception {
        private final int rest;

        NoChangeException(int rest) {
            super("no change for " + rest);
            this.rest = rest;
        }
    }

    private final SortedMap<Integer, Integer> coins = new TreeMap<Integer, Integer>(java.util.Collections.<Integer>reverseOrder());
    private final Map<String, Integer> prices = new HashMap<String, Integer>();
    private final Map<String, Integer> stock = new HashMap<String, Integer>();

    void fill(String name, int price, int count) {
        prices.put(name, price);
        stock.put(name, count);
    }

    void addCoins(int value, int count) {
        Integer before = coins.get(value);
        coins.put(value, before == null ? count : before + count);
    }

    Map<Integer, Integer> change(int amount) throws NoChangeException {
        Map<Integer, Integer> change = new TreeMap<Integer, Integer>();
        int rest = amount;
        for (Map.Entry<Integer, Integer> entry : coins.entrySet()) {
            int count = Math.min(rest / entry.getKey(), entry.getValue());
            if (count > 0) {
                change.put(entry.getKey(), count);
                rest -= count * entry.getKey();
            }
        }
        if (rest > 0) {
            throw new NoChangeException(rest);
        }
        for (Iterator<Map.Entry<Integer, Integer>> each = change.entrySet().iterator(); each.hasNext();) {
            Map.Entry<Integer, Integer> entry = each.next();
            addCoins(entry.getKey(), -entry.getValue());
        }
        return change;
    }

    void buy(String name, int... inserted) {
        if (!prices.containsKey(name) || stock.get(name) == 0) {
            System.out.println(name + ": there is none");
            return;
        }
        int paid = 0;
        for (int coin : inserted) {
            addCoins(coin, 1);
            paid += coin;
        }
        try {
            int price = prices.get(name);
            int back = paid < price ? paid : paid - price;
            Map<Integer, Integer> change = change(back);
            if (paid >= price) {
                stock.put(name, stock.get(name) - 1);
            }
            System.out.println(name + (paid < price ? ": too little, back " : ": sold, back ") + change.toString());
        } catch (NoChangeException e) {
            System.out.println(name + ": " + e.getMessage() + (e.rest == paid ? " at all" : ""));
        } finally {
            System.out.println("  coins " + coins.toString());
        }
    }

    public static void main(String[] args) {
        Main machine = new Main();
        machine.fill("tea", 130, 2);
        machine.fill("soup", 250, 1);
        machine.addCoins(50, 3);
        machine.addCoins(20, 2);
        machine.buy("tea", 200);
        machine.buy("tea", 100);
        machine.buy("soup", 200, 100);
        machine.buy("soup", 200, 200);
        machine.buy("tea", 100, 50);
        machine.buy("tea", 200, 50, 10);
        machine.buy("milk", 10);
    }
}
