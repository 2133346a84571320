/** An exception that is thrown is kept, as it may be held elsewhere; the object that was in use when it came is freed on each way out. */
public class Main {
    static class Account {
        private int money;

        Account(int money) {
            this.money = money;
        }

        int take(int n) {
            if (n > money) {
                throw new IllegalStateException("not enough");
            }
            money -= n;
            return money;
        }
    }

    static int left(int money, int n) {
        Account account = new Account(money);
        try {
            return account.take(n);
        } catch (IllegalStateException poor) {
            return -account.money;
        }
    }

    public static void main(String[] args) {
        int sum = 0;
        for (int n = 0; n < 100; n++) {
            sum += left(50, n);
        }
        System.out.println("left " + sum);
    }
}
