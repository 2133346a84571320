interface Units {
    int SECONDS_PER_MINUTE = 60;
    int MINUTES_PER_HOUR = 60;
    int SECONDS_PER_HOUR = SECONDS_PER_MINUTE * MINUTES_PER_HOUR;
    String[] NAMES = {"h", "min", "s"};
}

/** An interface with constants, which a class has by implementing it. */
public class Main implements Units {
    interface Clock extends Units {
        int[] split(int seconds);
    }

    static class Plain implements Clock {
        public int[] split(int seconds) {
            return new int[] {
                seconds / SECONDS_PER_HOUR, seconds / SECONDS_PER_MINUTE % MINUTES_PER_HOUR, seconds % SECONDS_PER_MINUTE,
            };
        }
    }

    static String text(Clock clock, int seconds) {
        StringBuilder text = new StringBuilder();
        int[] parts = clock.split(seconds);
        for (int i = 0; i < parts.length; i++) {
            if (parts[i] != 0) {
                text.append(parts[i]).append(' ').append(Units.NAMES[i]).append(' ');
            }
        }
        return text.toString().trim();
    }

    public static void main(String[] args) {
        Clock clock = new Plain();
        int[] times = {59, 60, 3600, 3661, 86399};
        for (int time : times) {
            System.out.println(time + " = " + text(clock, time));
        }
        System.out.println(SECONDS_PER_HOUR * 24 + " " + Plain.MINUTES_PER_HOUR);
    }
}
