import java.util.ArrayList;
import java.util.Arrays;
import java.util.List;

/** A table whose columns are as wide as they have to be. */
public class Main {
    private final List<String[]> rows = new ArrayList<String[]>();
    private final int[] widths;

    Main(int columns) {
        widths = new int[columns];
    }

    void add(Object... cells) {
        String[] row = new String[widths.length];
        for (int i = 0; i < row.length; i++) {
            row[i] = i < cells.length ? String.valueOf(cells[i]) : "";
            widths[i] = Math.max(widths[i], row[i].length());
        }
        rows.add(row);
    }

    @Override
    public String toString() {
        StringBuilder text = new StringBuilder();
        for (String[] row : rows) {
            for (int i = 0; i < row.length; i++) {
                String format = (i == 0 ? "%-" : "%") + widths[i] + "s";
                text.append(i == 0 ? "" : " | ").append(String.format(format, row[i]));
            }
            text.append(String.format("%n"));
        }
        return text.toString();
    }

    public static void main(String[] args) {
        Main table = new Main(3);
        table.add("name", "size", "more");
        table.add("alpha", 12345, Arrays.asList(1, 2));
        table.add("b", 7L);
        table.add('c', -1, null, "dropped");
        System.out.print(table);
    }
}
