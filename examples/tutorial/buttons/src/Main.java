import java.util.ArrayList;
import java.util.List;

/** Listeners: local and anonymous classes that use what is around them. */
public class Main {
    interface Listener {
        void pressed(String button, int times);
    }

    static class Button {
        private final String label;
        private final List<Listener> listeners = new ArrayList<Listener>();
        private int times;

        Button(String label) {
            this.label = label;
        }

        void add(Listener listener) {
            listeners.add(listener);
        }

        void press() {
            times++;
            for (Listener listener : listeners) {
                listener.pressed(label, times);
            }
        }
    }

    private int total;

    void run() {
        final StringBuilder log = new StringBuilder();
        final int limit = 2;
        class Logger implements Listener {
            private final String prefix;

            Logger(String prefix) {
                this.prefix = prefix;
            }

            public void pressed(String button, int times) {
                log.append(prefix).append(button).append(times <= limit ? "; " : "!; ");
                total++;
            }
        }
        Button ok = new Button("ok");
        Button cancel = new Button("cancel");
        ok.add(new Logger("> "));
        ok.add(new Listener() {
            private int seen;

            public void pressed(String button, int times) {
                seen += times;
                System.out.println(button + " pressed, " + seen);
            }
        });
        cancel.add(new Logger("x "));
        ok.press();
        cancel.press();
        ok.press();
        ok.press();
        System.out.println(log + "total " + total);
    }

    public static void main(String[] args) {
        new Main().run();
    }
}
