import java.util.Map;
import java.util.SortedMap;
import java.util.TreeMap;

/** A phone book in a tree map: names in their order, look-ups, and all names that begin alike. */
public class Main {
    private final TreeMap<String, String> numbers = new TreeMap<String, String>();

    void add(String name, String number) {
        String old = numbers.put(name, number);
        if (old != null) {
            System.out.println(name + " had " + old);
        }
    }

    String find(String name) {
        return numbers.containsKey(name) ? numbers.get(name) : "not listed";
    }

    /** The part of the book whose names begin with a text. */
    SortedMap<String, String> beginning(String text) {
        return numbers.subMap(text, text + '\uffff');
    }

    static void print(Map<String, String> book) {
        for (Map.Entry<String, String> entry : book.entrySet()) {
            System.out.println("  " + entry.getKey() + " " + entry.getValue());
        }
    }

    public static void main(String[] args) {
        Main book = new Main();
        book.add("Nowak", "555-0142");
        book.add("Adams", "555-0100");
        book.add("Novak", "555-0177");
        book.add("Berg", "555-0123");
        book.add("Nolan", "555-0150");
        book.add("Adams", "555-0199");
        System.out.println("all " + book.numbers.size() + ":");
        print(book.numbers);
        System.out.println("first " + book.numbers.firstKey() + ", last " + book.numbers.lastKey());
        System.out.println("beginning with No:");
        print(book.beginning("No"));
        System.out.println("before Berg:");
        print(book.numbers.headMap("Berg"));
        for (String name : args) {
            System.out.println(name + ": " + book.find(name));
        }
        book.beginning("No").remove("Nolan");
        System.out.println("then " + book.numbers.size() + ":");
        print(book.numbers.tailMap("C"));
    }
}
