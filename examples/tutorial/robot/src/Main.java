import java.util.ArrayList;
import java.util.List;

/** A robot that follows commands, which are texts. */
public class Main {
    private int x;
    private int y;
    private int direction;
    private final List<String> faults = new ArrayList<String>();

    private static final int[] DX = {0, 1, 0, -1};
    private static final int[] DY = {1, 0, -1, 0};
    private static final String[] NAMES = {"north", "east", "south", "west"};

    void follow(String line) {
        String[] words = line.split(" ");
        try {
            switch (words[0]) {
                case "go":
                    int steps = Integer.parseInt(words[1]);
                    x += DX[direction] * steps;
                    y += DY[direction] * steps;
                    break;
                case "left":
                    direction = (direction + 3) % 4;
                    break;
                case "right":
                    direction = (direction + 1) % 4;
                    break;
                default:
                    faults.add(line);
            }
        } catch (NumberFormatException e) {
            faults.add(e.getMessage());
        } catch (ArrayIndexOutOfBoundsException e) {
            faults.add(line + ": how far?");
        }
    }

    public static void main(String[] args) {
        Main robot = new Main();
        String[] program = {"go 5", "right", "go 3", "jump", "go two", "left", "left", "go", "go 10"};
        for (String line : program) {
            robot.follow(line);
        }
        System.out.println("at " + robot.x + ", " + robot.y + " to the " + NAMES[robot.direction]);
        System.out.println(robot.faults);
    }
}
