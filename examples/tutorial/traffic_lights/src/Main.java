/** A traffic light: an enum of states, with a switch on it. */
public class Main {
    enum Light { RED, GREEN, YELLOW }

    static Light next(Light light) {
        switch (light) {
            case RED:
                return Light.GREEN;
            case GREEN:
                return Light.YELLOW;
            case YELLOW:
                return Light.RED;
            default:
                throw new AssertionError(light);
        }
    }

    static int seconds(Light light) {
        int seconds = 2;
        switch (light) {
            case RED:
                seconds += 10;
            case GREEN:
                seconds += 20;
                break;
            default:
        }
        return seconds;
    }

    public static void main(String[] args) {
        Light light = Light.RED;
        int time = 0;
        for (int i = 0; i < 7; i++) {
            System.out.println(time + "s " + light);
            time += seconds(light);
            light = next(light);
        }
        System.out.println(light.compareTo(Light.YELLOW) < 0 ? "before yellow" : "yellow");
        System.out.println(light == Light.GREEN && light.equals(Light.valueOf("GREEN")));
    }
}
