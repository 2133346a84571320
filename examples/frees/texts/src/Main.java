/** Builders and texts that each line needs once: both are freed before the next line is built. */
public class Main {
    static void line(int n) {
        StringBuilder text = new StringBuilder();
        text.append(n).append(" squared is ").append(n * n);
        String line = text.toString();
        System.out.println(line);
    }

    public static void main(String[] args) {
        for (int n = 1; n <= 12; n++) {
            line(n);
        }
    }
}
