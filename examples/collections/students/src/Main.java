import java.util.ArrayList;
import java.util.Arrays;
import java.util.Collections;
import java.util.Comparator;
import java.util.List;

/** Students sorted in several ways: by their own order, by comparators, and by one after the other. */
public class Main {
    static class Student implements Comparable<Student> {
        final String name;
        final int year;
        final int points;

        Student(String name, int year, int points) {
            this.name = name;
            this.year = year;
            this.points = points;
        }

        public int compareTo(Student other) {
            return name.compareTo(other.name);
        }

        @Override
        public String toString() {
            return name + "/" + year + "/" + points;
        }
    }

    static final Comparator<Student> BY_POINTS = new Comparator<Student>() {
        public int compare(Student one, Student other) {
            return other.points - one.points;
        }
    };

    static final Comparator<Student> BY_YEAR = new Comparator<Student>() {
        public int compare(Student one, Student other) {
            return one.year - other.year;
        }
    };

    /** By one order, and where it says the same, by another. */
    static class Then<T> implements Comparator<T> {
        private final Comparator<? super T> first;
        private final Comparator<? super T> second;

        Then(Comparator<? super T> first, Comparator<? super T> second) {
            this.first = first;
            this.second = second;
        }

        public int compare(T one, T other) {
            int order = first.compare(one, other);
            return order != 0 ? order : second.compare(one, other);
        }
    }

    static void print(String title, Iterable<Student> students) {
        System.out.print(title + ":");
        for (Student student : students) {
            System.out.print(" " + student.toString());
        }
        System.out.println();
    }

    public static void main(String[] args) {
        List<Student> students = new ArrayList<Student>(Arrays.asList(new Student("Ines", 2, 71), new Student("Otto", 1, 88),
            new Student("Bo", 3, 71), new Student("Ada", 2, 95), new Student("Zoe", 1, 64), new Student("Max", 3, 88)));
        print("as they came", students);
        Collections.sort(students);
        print("by name", students);
        int place = Collections.binarySearch(students, new Student("Max", 0, 0));
        int gap = Collections.binarySearch(students, new Student("Nora", 0, 0));
        System.out.println("Max at " + place + ", Nora would be at " + (-gap - 1));
        Collections.sort(students, BY_POINTS);
        print("by points", students);
        Collections.sort(students, new Then<Student>(BY_YEAR, BY_POINTS));
        print("by year, then points", students);
        Collections.sort(students, Collections.reverseOrder(new Then<Student>(BY_POINTS, Collections.<Student>reverseOrder())));
        print("the same backwards", students);
        System.out.println("best " + Collections.min(students, BY_POINTS).toString() + ", last " + Collections.max(students).toString());
    }
}
