import java.util.ArrayList;
import java.util.List;

/** Reads lines of an order, with fields between commas. */
public class Main {
    static class Item {
        final String name;
        final int count;
        final long cents;

        Item(String line) {
            String[] fields = line.split(",");
            if (fields.length != 3) {
                throw new IllegalArgumentException(fields.length + " fields in \"" + line + "\"");
            }
            name = fields[0].trim();
            count = Integer.parseInt(fields[1].trim());
            cents = Long.parseLong(fields[2].trim());
        }

        long sum() {
            return count * cents;
        }
    }

    public static void main(String[] args) {
        String[] lines = {"pen, 10, 120", "book,2,1599", "paper, many, 5", "ink,3", "desk,1,12999"};
        List<Item> items = new ArrayList<Item>();
        for (String line : lines) {
            try {
                items.add(new Item(line));
            } catch (NumberFormatException e) {
                System.out.println("no number: " + e.getMessage());
            } catch (IllegalArgumentException e) {
                System.out.println(e.getMessage());
            }
        }
        long total = 0;
        for (Item item : items) {
            total += item.sum();
            System.out.println(item.name + ": " + item.sum() / 100 + "." + item.sum() % 100);
        }
        System.out.println("total " + total + " cents");
    }
}
