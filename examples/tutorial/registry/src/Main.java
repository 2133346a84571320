import java.util.ArrayList;
import java.util.Collections;
import java.util.List;

/** One object for the program, which counts and numbers what is made. */
public class Main {
    private static Main instance;
    private static int made;

    private final List<String> names = new ArrayList<String>();

    private Main() {
        made++;
    }

    static Main instance() {
        if (instance == null) {
            instance = new Main();
        }
        return instance;
    }

    static class Ticket {
        private static int next = 100;

        final int number = next++;
        final String name;

        Ticket(String name) {
            this.name = name;
            Main.instance().names.add(name + "#" + number);
        }
    }

    List<String> names() {
        return Collections.unmodifiableList(names);
    }

    public static void main(String[] args) {
        for (String name : new String[] {"ann", "bob", "cid"}) {
            new Ticket(name);
        }
        System.out.println(instance().names() + " " + made + " " + (instance() == instance()));
        try {
            instance().names().add("dan");
        } catch (UnsupportedOperationException e) {
            System.out.println("not to be changed");
        }
    }
}
