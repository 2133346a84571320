/** A table by printf. */
public class Main {
    public static void main(String[] args) {
        System.out.printf("%-8s|%6s|%5s%n", "name", "number", "hex");
        String[] names = {"one", "twelve", "thousand"};
        int[] numbers = {1, 12, 1000};
        for (int i = 0; i < names.length; i++) {
            System.out.printf("%-8s|%6d|%5x%n", names[i], numbers[i], numbers[i]);
        }
        System.out.println(String.format("%05d %c %b", 42, 'x', true));
    }
}
