import java.io.BufferedReader;
import java.io.IOException;
import java.io.InputStreamReader;
import java.util.ArrayList;
import java.util.Collections;
import java.util.List;
import java.util.ListIterator;

/** Prints the lines of the input with numbers, then from the last to the first, then sorted, without the empty ones. */
public class Main {
    static List<String> readLines() throws IOException {
        BufferedReader reader = new BufferedReader(new InputStreamReader(System.in));
        List<String> lines = new ArrayList<String>();
        String line;
        while ((line = reader.readLine()) != null) {
            lines.add(line);
        }
        reader.close();
        return lines;
    }

    static String number(int number, int width) {
        String text = String.valueOf(number);
        while (text.length() < width) {
            text = " " + text;
        }
        return text;
    }

    public static void main(String[] args) throws IOException {
        List<String> lines = readLines();
        int width = String.valueOf(lines.size()).length();
        int number = 1;
        for (String line : lines) {
            System.out.println(number(number++, width) + "  " + line);
        }
        System.out.println("-- backwards");
        ListIterator<String> back = lines.listIterator(lines.size());
        while (back.hasPrevious()) {
            System.out.println(number(back.previousIndex() + 1, width) + "  " + back.previous());
        }
        System.out.println("-- sorted");
        ListIterator<String> each = lines.listIterator();
        while (each.hasNext()) {
            if (each.next().length() == 0) {
                each.remove();
            }
        }
        Collections.sort(lines);
        for (String line : lines) {
            System.out.println(line);
        }
    }
}
