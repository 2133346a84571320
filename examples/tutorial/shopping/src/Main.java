import java.util.ArrayList;
import java.util.List;
import java.util.Scanner;

/** Reads what was bought, word by word. */
public class Main {
    public static void main(String[] args) {
        Scanner scanner = new Scanner(System.in);
        int count = scanner.nextInt();
        scanner.nextLine();
        List<String> names = new ArrayList<String>();
        int total = 0;
        for (int i = 0; i < count; i++) {
            String name = scanner.next();
            int pieces = scanner.nextInt();
            int cents = scanner.hasNextInt() ? scanner.nextInt() : 0;
            names.add(name);
            total += pieces * cents;
            System.out.println(pieces + " " + name + " at " + cents);
        }
        scanner.nextLine();
        System.out.println("note: " + scanner.nextLine());
        System.out.println(names + " " + total + " " + scanner.hasNext());
    }
}
