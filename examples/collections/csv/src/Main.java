import java.util.ArrayList;
import java.util.Collections;
import java.util.Comparator;
import java.util.HashMap;
import java.util.List;
import java.util.Map;
import java.util.Scanner;
import java.util.StringTokenizer;

/** Reads a table with a head and rows of the input, sorts it by a column that is an argument, and sums another one by groups. */
public class Main {
    private final List<String> head;
    private final List<List<String>> rows = new ArrayList<List<String>>();

    Main(String line) {
        head = cells(line);
    }

    static List<String> cells(String line) {
        List<String> cells = new ArrayList<String>();
        StringTokenizer tokens = new StringTokenizer(line, ",");
        while (tokens.hasMoreTokens()) {
            cells.add(tokens.nextToken());
        }
        return cells;
    }

    void add(String line, int number) {
        List<String> row = cells(line);
        if (row.size() == head.size()) {
            rows.add(row);
        } else {
            System.out.println("line " + number + " has " + row.size() + " cells and not " + head.size());
        }
    }

    int column(String name) {
        int column = head.indexOf(name);
        if (column < 0) {
            throw new IllegalArgumentException("no column " + name);
        }
        return column;
    }

    void sort(String name) {
        final int column = column(name);
        Collections.sort(rows, new Comparator<List<String>>() {
            public int compare(List<String> one, List<String> other) {
                return one.get(column).compareTo(other.get(column));
            }
        });
    }

    Map<String, Integer> sums(String key, String name) {
        Map<String, Integer> sums = new HashMap<String, Integer>();
        for (List<String> row : rows) {
            String group = row.get(column(key));
            int number = Integer.parseInt(row.get(column(name)));
            sums.put(group, sums.containsKey(group) ? sums.get(group) + number : number);
        }
        return sums;
    }

    void print() {
        for (List<String> row : rows) {
            StringBuilder line = new StringBuilder();
            for (String cell : row) {
                line.append(cell);
                for (int i = cell.length(); i < 10; i++) {
                    line.append(' ');
                }
            }
            System.out.println(line.append('|').toString());
        }
    }

    public static void main(String[] args) {
        Scanner scanner = new Scanner(System.in);
        Main table = new Main(scanner.nextLine());
        for (int number = 2; scanner.hasNextLine(); number++) {
            table.add(scanner.nextLine(), number);
        }
        for (String name : args) {
            try {
                System.out.println("by " + name);
                table.sort(name);
                table.print();
            } catch (IllegalArgumentException e) {
                System.out.println(e.getMessage());
            }
        }
        System.out.println(table.sums("country", "people").toString());
    }
}
