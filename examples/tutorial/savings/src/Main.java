/** Accounts of several kinds, which share what a class above has. */
public class Main {
    static abstract class Account {
        private static int count;

        protected final int number;
        private long cents;

        protected Account(long cents) {
            this.cents = cents;
            number = ++count;
        }

        public final long balance() {
            return cents;
        }

        public void deposit(long amount) {
            if (amount <= 0) {
                throw new IllegalArgumentException("deposit of " + amount);
            }
            cents += amount;
        }

        public boolean withdraw(long amount) {
            if (amount > cents + credit()) {
                return false;
            }
            cents -= amount;
            return true;
        }

        protected long credit() {
            return 0;
        }

        abstract void endOfMonth();

        public String toString() {
            return "account " + number + ": " + cents;
        }
    }

    static class Savings extends Account {
        private final int percent;

        Savings(long cents, int percent) {
            super(cents);
            this.percent = percent;
        }

        void endOfMonth() {
            deposit(balance() * percent / 1200);
        }
    }

    static class Giro extends Account {
        private int bookings;

        Giro() {
            super(0);
        }

        public void deposit(long amount) {
            super.deposit(amount);
            bookings++;
        }

        public boolean withdraw(long amount) {
            bookings++;
            return super.withdraw(amount);
        }

        protected long credit() {
            return 50000;
        }

        void endOfMonth() {
            super.withdraw(bookings * 10);
            bookings = 0;
        }
    }

    public static void main(String[] args) {
        Account[] accounts = {new Savings(120000, 3), new Giro()};
        System.out.println(accounts[1].withdraw(60000) + " " + accounts[1].withdraw(40000) + " " + accounts[0].withdraw(500000));
        for (Account account : accounts) {
            account.deposit(2500);
            account.endOfMonth();
            System.out.println(account);
        }
        try {
            accounts[0].deposit(-1);
        } catch (IllegalArgumentException e) {
            System.out.println(e.getMessage());
        }
    }
}
