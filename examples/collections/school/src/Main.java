import java.util.ArrayList;
import java.util.Collections;
import java.util.List;
import java.util.Map;
import java.util.TreeMap;

/** Marks of pupils in a map of maps: averages in tenths, rounded, and who is the best in each subject. */
public class Main {
    private final Map<String, Map<String, List<Integer>>> marks = new TreeMap<String, Map<String, List<Integer>>>();

    void add(String pupil, String subject, int... given) {
        Map<String, List<Integer>> subjects = marks.get(pupil);
        if (subjects == null) {
            subjects = new TreeMap<String, List<Integer>>();
            marks.put(pupil, subjects);
        }
        List<Integer> list = subjects.get(subject);
        if (list == null) {
            list = new ArrayList<Integer>();
            subjects.put(subject, list);
        }
        for (int mark : given) {
            list.add(mark);
        }
    }

    /** The average in tenths, rounded. */
    static int tenths(List<Integer> marks) {
        int sum = 0;
        for (int mark : marks) {
            sum += mark;
        }
        return (sum * 20 + marks.size()) / (2 * marks.size());
    }

    static String text(int tenths) {
        return tenths / 10 + "." + tenths % 10;
    }

    public static void main(String[] args) {
        Main school = new Main();
        school.add("Mia", "maths", 2, 1, 3);
        school.add("Mia", "music", 1);
        school.add("Tom", "maths", 2, 2);
        school.add("Tom", "sport", 3, 4, 2, 2);
        school.add("Eva", "sport", 1, 2);
        school.add("Mia", "maths", 1);
        Map<String, String> best = new TreeMap<String, String>();
        Map<String, Integer> lowest = new TreeMap<String, Integer>();
        for (Map.Entry<String, Map<String, List<Integer>>> pupil : school.marks.entrySet()) {
            List<Integer> all = new ArrayList<Integer>();
            for (Map.Entry<String, List<Integer>> subject : pupil.getValue().entrySet()) {
                String name = subject.getKey();
                int average = tenths(subject.getValue());
                all.addAll(subject.getValue());
                System.out.println(pupil.getKey() + ", " + name + ": " + subject.getValue().toString() + " " + text(average));
                if (!lowest.containsKey(name) || average < lowest.get(name)) {
                    lowest.put(name, average);
                    best.put(name, pupil.getKey());
                }
            }
            System.out.println(pupil.getKey() + ": " + text(tenths(all)) + ", worst " + Collections.max(all).intValue());
        }
        for (String subject : best.keySet()) {
            System.out.println("best in " + subject + ": " + best.get(subject) + " with " + text(lowest.get(subject)));
        }
    }
}
