/** A loop of simple instructions: ints in locals, and jumps. */
public class Main {
    public static void main(String[] arguments) {
        int sum = 0;
        int seed = 12345;
        for (int i = 0; i < 30000000; i++) {
            seed = seed * 1103515245 + 12345;
            sum += (seed >>> 16) & 7;
            if ((sum & 1) == 0) {
                sum ^= i;
            }
        }
        System.out.println(sum);
    }
}
