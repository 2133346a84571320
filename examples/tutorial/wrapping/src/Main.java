import java.util.ArrayList;
import java.util.List;
import java.util.StringTokenizer;

/** Breaks a text into lines, and sets them in three ways. */
public class Main {
    static List<String> wrap(String text, int width) {
        List<String> lines = new ArrayList<String>();
        String line = "";
        StringTokenizer words = new StringTokenizer(text);
        while (words.hasMoreTokens()) {
            String word = words.nextToken();
            if (line.length() > 0 && line.length() + 1 + word.length() > width) {
                lines.add(line);
                line = "";
            }
            line += (line.length() == 0 ? "" : " ") + word;
        }
        lines.add(line);
        return lines;
    }

    static String spaces(int count) {
        char[] chars = new char[count];
        for (int i = 0; i < count; i++) {
            chars[i] = ' ';
        }
        return String.valueOf(chars);
    }

    public static void main(String[] args) {
        String text = "A program is a list of   instructions that a machine follows\tone after the other,\nwhatever they mean.";
        int width = 24;
        for (String line : wrap(text, width)) {
            System.out.println("|" + line + spaces(width - line.length()) + "|");
        }
        for (String line : wrap(text, width)) {
            int left = (width - line.length()) / 2;
            System.out.println("|" + spaces(left) + line + spaces(width - line.length() - left) + "|");
        }
        System.out.println(new StringTokenizer("2026-11-30", "-").countTokens());
    }
}
