import java.util.Arrays;
import java.util.Collections;
import java.util.List;

/** Looks for numbers: one by one, by halves, and with the library. */
public class Main {
    private static int looks;

    static int linear(int[] numbers, int wanted) {
        for (int i = 0; i < numbers.length; i++) {
            looks++;
            if (numbers[i] == wanted) {
                return i;
            }
        }
        return -1;
    }

    static int binary(int[] numbers, int wanted) {
        int low = 0;
        int high = numbers.length - 1;
        while (low <= high) {
            looks++;
            int middle = (low + high) >>> 1;
            if (numbers[middle] < wanted) {
                low = middle + 1;
            } else if (numbers[middle] > wanted) {
                high = middle - 1;
            } else {
                return middle;
            }
        }
        return -(low + 1);
    }

    public static void main(String[] args) {
        int[] numbers = new int[50];
        for (int i = 0; i < numbers.length; i++) {
            numbers[i] = i * 37 % 101;
        }
        Arrays.sort(numbers);
        for (int wanted : new int[] {numbers[31], 4, -1, 100}) {
            looks = 0;
            int one = linear(numbers, wanted);
            String text = wanted + ": " + one + " after " + looks;
            looks = 0;
            int other = binary(numbers, wanted);
            System.out.println(text + ", " + other + " after " + looks + ", " + (other == Arrays.binarySearch(numbers, wanted)));
        }
        List<String> names = Arrays.asList("ada", "alan", "grace", "linus");
        System.out.println(Collections.binarySearch(names, "grace") + " " + Collections.binarySearch(names, "bob"));
    }
}
