import java.util.ArrayList;
import java.util.Collections;
import java.util.Comparator;
import java.util.List;
import java.util.Map;
import java.util.SortedMap;
import java.util.TreeMap;

/** Books by author and by year. */
public class Main {
    static class Book {
        private final String author;
        private final String title;
        private final int year;

        Book(String author, String title, int year) {
            this.author = author;
            this.title = title;
            this.year = year;
        }

        String author() {
            return author;
        }

        @Override
        public String toString() {
            return String.format("%-12s %4d", title, year);
        }
    }

    public static void main(String[] args) {
        SortedMap<String, List<Book>> shelves = new TreeMap<String, List<Book>>();
        Book[] books = {
            new Book("Verne", "Moon", 1865), new Book("Shelley", "Frankenstein", 1818), new Book("Verne", "Journey", 1864),
            new Book("Wells", "Time Machine", 1895), new Book("Verne", "Sea", 1870),
        };
        for (Book book : books) {
            if (!shelves.containsKey(book.author())) {
                shelves.put(book.author(), new ArrayList<Book>());
            }
            shelves.get(book.author()).add(book);
        }
        for (Map.Entry<String, List<Book>> shelf : shelves.entrySet()) {
            Collections.sort(shelf.getValue(), new Comparator<Book>() {
                public int compare(Book one, Book other) {
                    return one.year - other.year;
                }
            });
            System.out.println(shelf.getKey());
            for (Book book : shelf.getValue()) {
                System.out.println("  " + book + "|");
            }
        }
        System.out.println(shelves.firstKey() + " " + shelves.headMap("Verne").size() + " " + shelves.tailMap("Verne").keySet());
    }
}
