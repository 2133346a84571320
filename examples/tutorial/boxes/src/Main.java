import java.util.ArrayList;
import java.util.List;

/** Numbers as objects. */
public class Main {
    static int sum(List<Integer> numbers) {
        int sum = 0;
        for (Integer number : numbers) {
            sum += number;
        }
        return sum;
    }

    public static void main(String[] args) {
        Integer small = 100;
        Integer same = 100;
        Integer large = 1000;
        Integer other = new Integer(1000);
        System.out.println((small == same) + " " + (large == other) + " " + large.equals(other) + " " + (large == 1000));
        Long number = 5L;
        System.out.println(number.equals(5) + " " + number.equals(5L) + " " + number.intValue() + " " + number.hashCode());
        List<Integer> numbers = new ArrayList<Integer>();
        for (int i = 10; i > 0; i -= 3) {
            numbers.add(i);
        }
        numbers.remove(1);
        numbers.remove(Integer.valueOf(1));
        System.out.println(numbers + " " + sum(numbers));
        Character letter = 'x';
        letter++;
        Boolean flag = letter == 'y';
        System.out.println(letter + " " + flag + " " + Boolean.valueOf("TRUE") + " " + letter.compareTo('z'));
        Integer nothing = null;
        try {
            int value = nothing;
            System.out.println(value);
        } catch (NullPointerException e) {
            System.out.println("no number");
        }
        System.out.println(Integer.MAX_VALUE + " " + Short.MIN_VALUE + " " + Byte.parseByte("-12") + " " + Integer.valueOf("77", 8));
        Object[] objects = {1, 2L, 'c', true, (byte) 3, (short) 4};
        int count = 0;
        for (Object object : objects) {
            count += object instanceof Number ? ((Number) object).intValue() : 0;
        }
        System.out.println(count);
    }
}
