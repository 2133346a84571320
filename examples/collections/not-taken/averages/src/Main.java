import java.util.ArrayList;
import java.util.List;

/** The average of numbers as a double. */
public class Main {
    public static void main(String[] args) {
        List<Double> heights = new ArrayList<Double>();
        heights.add(1.75);
        heights.add(1.62);
        heights.add(1.8);
        double sum = 0;
        for (double height : heights) {
            sum += height;
        }
        System.out.println("average " + sum / heights.size());
        System.out.println("root " + Math.sqrt(2));
    }
}
