import java.util.ArrayList;
import java.util.List;

/** Prints a list as it is. */
public class Main {
    public static void main(String[] args) {
        List<String> colours = new ArrayList<String>();
        colours.add("red");
        colours.add("green");
        colours.add(1, "blue");
        System.out.println(colours);
        colours.remove("red");
        System.out.println(colours);
        System.out.println(colours.get(0));
    }
}
