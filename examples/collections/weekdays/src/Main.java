/** An enum with a field and a method, and a switch on it. */
public class Main {
    enum Day {
        MONDAY(8), TUESDAY(8), SATURDAY(0), SUNDAY(0);

        private final int hours;

        Day(int hours) {
            this.hours = hours;
        }

        boolean isFree() {
            return hours == 0;
        }
    }

    static String mood(Day day) {
        switch (day) {
            case MONDAY:
                return "tired";
            case SUNDAY:
                return "calm";
            default:
                return "fine";
        }
    }

    public static void main(String[] args) {
        for (Day day : Day.values()) {
            System.out.println(day.ordinal() + " " + day.name() + " " + mood(day) + (day.isFree() ? ", free" : ""));
        }
        System.out.println(Day.valueOf("SUNDAY").compareTo(Day.MONDAY));
    }
}
