import java.util.ArrayList;
import java.util.List;

/** Actions that are objects: inner classes, with and without a name. */
public class Main {
    private int value;
    private final List<Runnable> actions = new ArrayList<Runnable>();

    class Add implements Runnable {
        private final int amount;

        Add(int amount) {
            this.amount = amount;
        }

        public void run() {
            value += amount;
        }
    }

    void fill() {
        actions.add(new Add(5));
        actions.add(new Runnable() {
            public void run() {
                value *= 3;
            }
        });
        final int limit = 20;
        actions.add(new Runnable() {
            public void run() {
                value = Math.min(value, limit);
            }
        });
    }

    public static void main(String[] args) {
        Main main = new Main();
        main.fill();
        Main.Add more = main.new Add(1);
        for (int turn = 0; turn < 3; turn++) {
            for (Runnable action : main.actions) {
                action.run();
            }
            more.run();
            System.out.println("value " + main.value);
        }
    }
}
