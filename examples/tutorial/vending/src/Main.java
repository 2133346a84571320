import java.util.ArrayList;
import java.util.List;

/** A vending machine: states that are constants with bodies, and events that are texts. */
public class Main {
    enum State {
        IDLE {
            State insert(Main machine, int cents) {
                machine.cents = cents;
                return READY;
            }
        },
        READY {
            State insert(Main machine, int cents) {
                machine.cents += cents;
                return this;
            }

            State choose(Main machine, int price) {
                if (machine.cents < price) {
                    machine.log.add("needs " + (price - machine.cents) + " more");
                    return this;
                }
                machine.log.add("sold for " + price + ", change " + (machine.cents - price));
                machine.cents = 0;
                return ++machine.sold == machine.stock ? EMPTY : IDLE;
            }
        },
        EMPTY;

        State insert(Main machine, int cents) {
            machine.log.add("gives back " + cents);
            return this;
        }

        State choose(Main machine, int price) {
            machine.log.add("does nothing in " + this);
            return this;
        }
    }

    private State state = State.IDLE;
    private int cents;
    private int sold;
    private final int stock;
    private final List<String> log = new ArrayList<String>();

    Main(int stock) {
        this.stock = stock;
    }

    public static void main(String[] args) {
        Main machine = new Main(2);
        int[] events = {-120, 100, -120, 50, -120, 200, -150, 10, -5};
        for (int event : events) {
            State before = machine.state;
            machine.state = event > 0 ? machine.state.insert(machine, event) : machine.state.choose(machine, -event);
            if (machine.state != before) {
                machine.log.add(before + " to " + machine.state);
            }
        }
        for (String line : machine.log) {
            System.out.println(line);
        }
    }
}
