import java.util.ArrayList;
import java.util.Collections;
import java.util.List;
import java.util.Scanner;

/** The numbers of the input: how many, the sum, the middle one. */
public class Main {
    public static void main(String[] args) {
        Scanner in = new Scanner(System.in);
        List<Integer> numbers = new ArrayList<Integer>();
        int skipped = 0;
        while (in.hasNext()) {
            if (in.hasNextInt()) {
                numbers.add(in.nextInt());
            } else {
                in.next();
                skipped++;
            }
        }
        long sum = 0;
        for (int number : numbers) {
            sum += number;
        }
        Collections.sort(numbers);
        System.out.println("count " + numbers.size() + ", skipped " + skipped + ", sum " + sum);
        System.out.println("least " + Collections.min(numbers).intValue() + ", greatest " + Collections.max(numbers).intValue());
        System.out.println("middle " + numbers.get(numbers.size() / 2).intValue());
    }
}
