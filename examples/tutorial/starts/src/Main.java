/** The order in which classes and objects are initialised. */
public class Main {
    static int counter = log("static field", 1);

    int field = log("field", 2);

    static {
        log("static block", counter);
    }

    {
        log("block", field);
        field *= 10;
    }

    Main() {
        this(5);
        log("constructor", field);
    }

    Main(int more) {
        log("constructor of int", field + more);
    }

    static int log(String what, int value) {
        System.out.println(what + " " + value);
        return value + 1;
    }

    static class Base {
        Base() {
            System.out.println("Base: " + name());
        }

        String name() {
            return "base";
        }
    }

    static class Derived extends Base {
        static final String CONSTANT = "constant";
        static {
            System.out.println("Derived starts");
        }

        private String name = "derived";

        Derived() {
            System.out.println("Derived: " + name());
        }

        @Override
        String name() {
            return name;
        }
    }

    public static void main(String[] args) {
        System.out.println("main");
        new Main();
        System.out.println(Derived.CONSTANT);
        new Derived();
        new Derived();
    }
}
