/** Days of the calendar. */
public class Main {
    private static final int[] DAYS = {31, 28, 31, 30, 31, 30, 31, 31, 30, 31, 30, 31};
    private static final String[] WEEKDAYS = {"Sunday", "Monday", "Tuesday", "Wednesday", "Thursday", "Friday", "Saturday"};

    private final int year, month, day;

    Main(int year, int month, int day) {
        if (month < 1 || month > 12 || day < 1 || day > length(year, month)) {
            throw new IllegalArgumentException(year + "-" + month + "-" + day);
        }
        this.year = year;
        this.month = month;
        this.day = day;
    }

    static boolean isLeap(int year) {
        return year % 4 == 0 && year % 100 != 0 || year % 400 == 0;
    }

    static int length(int year, int month) {
        return month == 2 && isLeap(year) ? 29 : DAYS[month - 1];
    }

    int number() {
        int days = 365 * (year - 1) + (year - 1) / 4 - (year - 1) / 100 + (year - 1) / 400 + day;
        for (int m = 1; m < month; m++) {
            days += length(year, m);
        }
        return days;
    }

    String weekday() {
        return WEEKDAYS[number() % 7];
    }

    static void print(int year, int month) {
        System.out.println("Mo Tu We Th Fr Sa Su");
        int skip = (new Main(year, month, 1).number() + 6) % 7;
        StringBuilder line = new StringBuilder();
        for (int i = 0; i < skip; i++) {
            line.append("   ");
        }
        for (int day = 1; day <= length(year, month); day++) {
            line.append(day < 10 ? " " : "").append(day).append(' ');
            if ((day + skip) % 7 == 0 || day == length(year, month)) {
                System.out.println(line);
                line = new StringBuilder();
            }
        }
    }

    public static void main(String[] args) {
        System.out.println(new Main(2004, 9, 30).weekday() + " " + new Main(2000, 2, 29).weekday());
        System.out.println(new Main(2026, 12, 24).number() - new Main(2026, 11, 30).number() + " days");
        print(2026, 2);
        try {
            new Main(2025, 2, 29);
        } catch (IllegalArgumentException e) {
            System.out.println("no such day: " + e.getMessage());
        }
    }
}
