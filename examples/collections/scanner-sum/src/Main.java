import java.util.ArrayList;
import java.util.Collections;
import java.util.List;
import java.util.Scanner;

/** Reads a table of numbers with a scanner: a name and numbers in each row, and prints what they come to. */
public class Main {
    static long sum(List<Integer> numbers) {
        long sum = 0;
        for (int number : numbers) {
            sum += number;
        }
        return sum;
    }

    static int median(List<Integer> numbers) {
        List<Integer> sorted = new ArrayList<Integer>(numbers);
        Collections.sort(sorted);
        return sorted.get(sorted.size() / 2);
    }

    public static void main(String[] args) {
        Scanner scanner = new Scanner(System.in);
        int rows = scanner.nextInt();
        System.out.println(rows + " rows are announced");
        List<Integer> all = new ArrayList<Integer>();
        while (scanner.hasNext()) {
            String name = scanner.next();
            List<Integer> numbers = new ArrayList<Integer>();
            while (scanner.hasNextInt()) {
                numbers.add(scanner.nextInt());
            }
            rows--;
            if (numbers.isEmpty()) {
                System.out.println(name + ": no numbers");
                continue;
            }
            System.out.println(name + ": sum " + sum(numbers) + ", least " + Collections.min(numbers).intValue()
                + ", greatest " + Collections.max(numbers).intValue() + ", median " + median(numbers));
            all.addAll(numbers);
        }
        System.out.println("all: sum " + sum(all) + " of " + all.size() + (rows == 0 ? "" : ", and the number of rows was wrong"));
    }
}
