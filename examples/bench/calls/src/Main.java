/** A loop of calls: static methods that call one another. */
public class Main {
    static int next(int n) {
        return n * 31 + 7;
    }

    static int fibonacci(int n) {
        if (n < 2) {
            return n;
        }
        return fibonacci(n - 1) + fibonacci(n - 2);
    }

    public static void main(String[] arguments) {
        int sum = 1;
        for (int i = 0; i < 8000000; i++) {
            sum = next(sum);
        }
        System.out.println(sum);
        System.out.println(fibonacci(32));
    }
}
