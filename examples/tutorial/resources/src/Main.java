/** What finally does, in all ways out of a try. */
public class Main {
    static class Resource {
        private final String name;

        Resource(String name) {
            this.name = name;
            System.out.println("open " + name);
        }

        void use(int number) {
            System.out.println(name + ": " + 100 / number);
        }

        void close() {
            System.out.println("close " + name);
        }
    }

    static int work(int number) {
        Resource one = new Resource("one");
        try {
            Resource two = new Resource("two");
            try {
                two.use(number);
                if (number > 50) {
                    return number;
                }
            } finally {
                two.close();
            }
            one.use(number + 1);
        } catch (ArithmeticException e) {
            System.out.println("no division");
            return -1;
        } finally {
            one.close();
        }
        return 0;
    }

    @SuppressWarnings("finally")
    static int last() {
        try {
            throw new IllegalStateException();
        } finally {
            return 3;
        }
    }

    public static void main(String[] args) {
        int[] numbers = {5, 99, 0, -1};
        for (int number : numbers) {
            System.out.println("result " + work(number));
        }
        for (int i = 0; ; i++) {
            try {
                if (i == 1) {
                    continue;
                }
                if (i == 3) {
                    break;
                }
            } finally {
                System.out.println("turn " + i);
            }
        }
        System.out.println(last());
    }
}
