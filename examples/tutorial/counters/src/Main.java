/** Inner objects that are made by an outer one from outside. */
public class Main {
    private final String name;
    private int total;

    Main(String name) {
        this.name = name;
    }

    class Counter {
        private int count;
        private final int step;

        Counter(int step) {
            this.step = step;
        }

        void next() {
            count += step;
            total += step;
        }

        @Override
        public String toString() {
            return name + "/" + count + " of " + Main.this.total;
        }
    }

    public static void main(String[] args) {
        Main left = new Main("left");
        Main right = new Main("right");
        Main.Counter one = left.new Counter(1);
        Counter two = left.new Counter(10);
        Counter three = right.new Counter(5);
        for (int i = 0; i < 3; i++) {
            one.next();
            two.next();
        }
        three.next();
        System.out.println(one);
        System.out.println(two);
        System.out.println(three);
    }
}
