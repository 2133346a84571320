/** What a try opens and closes, where all goes well and where something is thrown. */
public class Main {
    static class Door implements AutoCloseable {
        private final String name;
        private final boolean isStuck;

        Door(String name, boolean isStuck) {
            this.name = name;
            this.isStuck = isStuck;
            System.out.println("opens " + name);
        }

        public void close() {
            System.out.println("closes " + name);
            if (isStuck) {
                throw new IllegalStateException(name + " is stuck");
            }
        }
    }

    static void pass(boolean isStuck, int number) {
        try (Door front = new Door("front", false); Door back = new Door("back", isStuck)) {
            System.out.println(front.name + " to " + back.name + " " + 10 / number);
        } catch (ArithmeticException e) {
            System.out.println("no number");
        } catch (IllegalStateException e) {
            System.out.println(e.getMessage());
        } finally {
            System.out.println("done");
        }
    }

    public static void main(String[] args) throws Exception {
        pass(false, 2);
        pass(false, 0);
        pass(true, 5);
        pass(true, 0);
        AutoCloseable none = null;
        try (AutoCloseable nothing = none) {
            System.out.println(nothing == null);
        }
    }
}
