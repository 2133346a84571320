/** A switch over texts. */
public class Main {
    static int days(String month, boolean leap) {
        switch (month) {
            case "February":
                return leap ? 29 : 28;
            case "April":
            case "June":
            case "September":
            case "November":
                return 30;
            case "":
                throw new IllegalArgumentException("no month");
            default:
                return 31;
        }
    }

    public static void main(String[] args) {
        String[] months = {"January", "February", "April", "November", ""};
        for (String month : months) {
            try {
                System.out.println(month + " has " + days(month, false) + " or " + days(month, true));
            } catch (IllegalArgumentException e) {
                System.out.println(e.getMessage());
            }
        }
        // Both have the same hash code.
        for (String text : new String[] {"Aa", "BB", "C#"}) {
            switch (text) {
                case "Aa": System.out.println("first"); break;
                case "BB": System.out.println("second"); break;
                default: System.out.println("neither");
            }
        }
    }
}
