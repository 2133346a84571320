/** Methods with any number of arguments, of objects and of numbers. */
public class Main {
    static String join(String between, Object... parts) {
        StringBuilder text = new StringBuilder();
        for (int i = 0; i < parts.length; i++) {
            if (i > 0) {
                text.append(between);
            }
            text.append(parts[i]);
        }
        return text.toString();
    }

    static int max(int first, int... rest) {
        int max = first;
        for (int each : rest) {
            max = Math.max(max, each);
        }
        return max;
    }

    static String which(Object object) {
        return "one object";
    }

    static String which(Object... objects) {
        return objects.length + " objects";
    }

    static String which(int number) {
        return "an int";
    }

    public static void main(String... args) {
        System.out.println(join(", ", 1, 'b', "three", 4L, true, null));
        System.out.println("[" + join("-") + "]" + join("+", new Object[] {"a", "b"}));
        System.out.println(max(3) + " " + max(3, 9, 4) + " " + max(-1, new int[] {-5, -2}));
        System.out.println(which("x") + ", " + which() + ", " + which(1, 2) + ", " + which(7) + ", " + which(7L));
        main2(args, "a", "b");
    }

    static void main2(String[] args, String... more) {
        System.out.println(args.length + more.length);
    }
}
