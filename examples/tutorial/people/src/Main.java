import java.util.ArrayList;
import java.util.Collections;
import java.util.Comparator;
import java.util.List;

/** People in several orders. */
public class Main {
    static class Person {
        final String name;
        final int age;

        Person(String name, int age) {
            this.name = name;
            this.age = age;
        }

        @Override
        public String toString() {
            return name + "(" + age + ")";
        }
    }

    static final Comparator<Person> BY_AGE = new Comparator<Person>() {
        public int compare(Person one, Person other) {
            return one.age - other.age;
        }
    };

    static class ByName implements Comparator<Person> {
        public int compare(Person one, Person other) {
            return one.name.compareTo(other.name);
        }
    }

    public static void main(String[] args) {
        List<Person> people = new ArrayList<Person>();
        people.add(new Person("Nina", 41));
        people.add(new Person("Ada", 36));
        people.add(new Person("Tom", 41));
        people.add(new Person("Bob", 12));
        Collections.sort(people, new ByName());
        System.out.println("by name: " + people);
        Collections.sort(people, BY_AGE);
        System.out.println("by age: " + people);
        Collections.sort(people, Collections.reverseOrder(BY_AGE));
        System.out.println("oldest first: " + people);
        System.out.println("youngest: " + Collections.min(people, BY_AGE));
        Collections.sort(people, new Comparator<Person>() {
            public int compare(Person one, Person other) {
                int byLength = one.name.length() - other.name.length();
                return byLength != 0 ? byLength : new ByName().compare(other, one);
            }
        });
        System.out.println("by length: " + people);
    }
}
