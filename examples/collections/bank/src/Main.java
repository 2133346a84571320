import java.util.ArrayList;
import java.util.HashMap;
import java.util.List;
import java.util.Map;

/** A bank: accounts by their owners in a hash map, each with a list of what happened. */
public class Main {
    static class OverdrawnException extends Exception {
        OverdrawnException(String owner, long missing) {
            super(owner + " lacks " + money(missing));
        }
    }

    static class Account {
        private final String owner;
        private final List<String> history = new ArrayList<String>();
        private long cents;

        Account(String owner) {
            this.owner = owner;
        }

        void deposit(long amount) {
            cents += amount;
            history.add("+" + money(amount));
        }

        void withdraw(long amount) throws OverdrawnException {
            if (amount > cents) {
                throw new OverdrawnException(owner, amount - cents);
            }
            cents -= amount;
            history.add("-" + money(amount));
        }
    }

    private final Map<String, Account> accounts = new HashMap<String, Account>();

    static String money(long cents) {
        long rest = cents % 100;
        return cents / 100 + (rest < 10 ? ".0" : ".") + rest;
    }

    Account account(String owner) {
        Account account = accounts.get(owner);
        if (account == null) {
            account = new Account(owner);
            accounts.put(owner, account);
        }
        return account;
    }

    void transfer(String from, String to, long amount) {
        try {
            account(from).withdraw(amount);
            account(to).deposit(amount);
            System.out.println(from + " gives " + to + " " + money(amount));
        } catch (OverdrawnException e) {
            System.out.println("refused: " + e.getMessage());
        }
    }

    public static void main(String[] args) {
        Main bank = new Main();
        bank.account("Ada").deposit(100000);
        bank.account("Ben").deposit(5050);
        bank.transfer("Ada", "Ben", 12345);
        bank.transfer("Ben", "Cleo", 17395);
        bank.transfer("Ben", "Ada", 1);
        bank.transfer("Cleo", "Ada", 20000);
        long total = 0;
        for (Account account : bank.accounts.values()) {
            total += account.cents;
            System.out.println(account.owner + " has " + money(account.cents) + " after " + account.history.size() + " entries");
            for (String entry : account.history) {
                System.out.println("  " + entry);
            }
        }
        System.out.println("in all " + money(total));
    }
}
