/** Conditions inside expressions. */
public class Main {
    static String grade(int points) {
        return points >= 90 ? "A" : points >= 75 ? "B" : points >= 60 ? "C" : "D";
    }

    static boolean isLeap(int year) {
        return year % 4 == 0 && (year % 100 != 0 || year % 400 == 0);
    }

    static int middle(int a, int b, int c) {
        return a > b ? (b > c ? b : a > c ? c : a) : (a > c ? a : b > c ? c : b);
    }

    static String plural(int count, String word) {
        return count + " " + word + (count == 1 ? "" : word.endsWith("s") ? "es" : "s");
    }

    public static void main(String[] args) {
        for (int points = 55; points <= 100; points += 15) {
            System.out.print(grade(points) + (points < 100 ? ", " : "\n"));
        }
        int[] years = {1900, 2000, 2004, 2026};
        for (int year : years) {
            System.out.println(year + (isLeap(year) ? " is" : " isn't") + " a leap year");
        }
        System.out.println(middle(1, 2, 3) + " " + middle(3, 1, 2) + " " + middle(2, 3, 1));
        System.out.println(plural(1, "word") + ", " + plural(0, "line") + ", " + plural(3, "class"));
        Integer none = null;
        Object value = none == null ? "none" : none;
        System.out.println(value);
        int i = 5;
        i = i++ + ++i;
        System.out.println(i + " " + (i > 10 & i++ < 20 | false) + " " + i);
    }
}
