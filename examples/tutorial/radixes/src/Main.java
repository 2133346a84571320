/** Numbers in other radixes. */
public class Main {
    public static void main(String[] args) {
        int[] numbers = {0, 1, 10, 255, 1024, -1};
        for (int number : numbers) {
            System.out.println(number + ": " + Integer.toBinaryString(number) + " " + Integer.toOctalString(number) + " " + Integer.toHexString(number) + " "
                + Integer.toString(number, 36));
        }
        String[] texts = {"ff", "-80", "zz", "7fffffff"};
        for (String text : texts) {
            try {
                System.out.println(text + " is " + Integer.parseInt(text, 16) + ", and back " + Integer.toString(Integer.parseInt(text, 16), 16));
            } catch (NumberFormatException e) {
                System.out.println(text + " isn't hexadecimal");
            }
        }
        System.out.println("limits " + Integer.MAX_VALUE + " " + Integer.MIN_VALUE + " " + Long.MAX_VALUE + " " + Short.MAX_VALUE + " " + Byte.MIN_VALUE);
        System.out.println("bits of 1000: " + Integer.bitCount(1000) + ", highest " + Integer.highestOneBit(1000));
    }
}
