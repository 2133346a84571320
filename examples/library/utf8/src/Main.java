import java.io.IOException;
import java.io.InputStreamReader;

/** Prints the chars of an input with each sort of bytes that are no UTF-8, in lines: U+FFFD, and what is as it should be. */
public class Main {
    public static void main(String[] args) throws IOException {
        InputStreamReader reader = new InputStreamReader(System.in, "UTF-8");
        StringBuilder line = new StringBuilder();
        for (int value = reader.read(); value >= 0; value = reader.read()) {
            line.append(Integer.toHexString(value)).append(' ');
            if (value == '\n') {
                System.out.println(line.toString());
                line = new StringBuilder();
            }
        }
        System.out.println(line.toString());
    }
}
