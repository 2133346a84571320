import java.util.EnumMap;
import java.util.EnumSet;
import java.util.Map;
import java.util.Set;

/** A timetable by maps and sets of an enum. */
public class Main {
    enum Day { MONDAY, TUESDAY, WEDNESDAY, THURSDAY, FRIDAY, SATURDAY, SUNDAY }

    public static void main(String[] args) {
        Map<Day, String> lessons = new EnumMap<Day, String>(Day.class);
        lessons.put(Day.FRIDAY, "music");
        lessons.put(Day.MONDAY, "maths");
        lessons.put(Day.WEDNESDAY, "art");
        for (Map.Entry<Day, String> each : lessons.entrySet()) {
            System.out.println(each.getKey() + ": " + each.getValue());
        }
        Set<Day> free = EnumSet.allOf(Day.class);
        free.removeAll(lessons.keySet());
        System.out.println("free: " + free);
        Set<Day> weekend = EnumSet.of(Day.SUNDAY, Day.SATURDAY);
        System.out.println(weekend + " " + free.containsAll(weekend) + " " + EnumSet.range(Day.TUESDAY, Day.THURSDAY));
    }
}
