import java.util.ArrayList;
import java.util.Collections;
import java.util.Comparator;
import java.util.List;

/** Sorts students by their marks, and by their names where these are equal. */
public class Main {
    static class Student {
        final String name;
        final int mark;

        Student(String name, int mark) {
            this.name = name;
            this.mark = mark;
        }

        public String toString() {
            return name + " (" + mark + ")";
        }
    }

    static class ByMark implements Comparator<Student> {
        public int compare(Student one, Student other) {
            return one.mark != other.mark ? other.mark - one.mark : one.name.compareTo(other.name);
        }
    }

    public static void main(String[] args) {
        List<Student> students = new ArrayList<Student>();
        students.add(new Student("Dora", 4));
        students.add(new Student("Anna", 6));
        students.add(new Student("Carl", 5));
        students.add(new Student("Beat", 4));
        Collections.sort(students, new ByMark());
        for (Student student : students) {
            System.out.println(student.toString());
        }
        System.out.println("best: " + Collections.min(students, new ByMark()).toString());
        Collections.reverse(students);
        System.out.println(students.toString());
    }
}
