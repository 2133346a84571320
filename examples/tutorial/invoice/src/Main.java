/** An invoice as a table, by printf. */
public class Main {
    public static void main(String[] args) {
        String[] names = {"Pencil", "Notebook", "Fountain pen"};
        int[] counts = {12, 3, 1};
        int[] cents = {45, 299, 124950};
        System.out.printf("%-14s%5s%12s%n", "Item", "Count", "Price");
        int total = 0;
        for (int i = 0; i < names.length; i++) {
            int price = counts[i] * cents[i];
            total += price;
            System.out.printf("%-14s%5d%,9d.%02d%n", names[i], counts[i], price / 100, price % 100);
        }
        System.out.printf("%-19s%,9d.%02d%n", "Total", total / 100, total % 100);
        System.out.printf("%d%% off: %s%n", 10, total - total / 10);
        String line = String.format("%05d|%+d|%x|%X|%o|%c|%b|%8s|%-8s|", 42, 7, 255, 255, 8, 'J', true, "right", "left");
        System.out.println(line + line.length());
        System.out.println(String.format("%2$s %1$s %2$S", "one", "two") + String.format("%.2s%10d", "text", -1234567890123L));
    }
}
