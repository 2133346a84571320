// Prints how many months of the years 2001 to 2100 begin on a Monday, as the first of January 2001 did.
class Weekdays {
    static final int FIRST_YEAR = 2001;

    static boolean isLeap(int year) {
        return year % 4 == 0 && (year % 100 != 0 || year % 400 == 0);
    }

    static int daysOf(int year, int month) {
        switch (month) {
            case 2:
                return isLeap(year) ? 29 : 28;
            case 4:
            case 6:
            case 9:
            case 11:
                return 30;
            default:
                return 31;
        }
    }

    static int average(int sum, int count) {
        try {
            return sum / count;
        } catch (ArithmeticException e) {
            return 0;
        }
    }

    public static void main(String[] args) {
        long days = 0;
        int mondays = 0;
        for (int year = FIRST_YEAR; year < FIRST_YEAR + 100; year++) {
            for (int month = 1; month <= 12; month++) {
                if (days % 7 == 0) {
                    mondays++;
                }
                days += daysOf(year, month);
            }
        }
        System.out.println(mondays);
        System.out.println(average(mondays, 0));
        System.out.println((int) days);
    }
}
