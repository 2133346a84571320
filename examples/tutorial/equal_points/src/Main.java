import java.util.HashMap;
import java.util.HashSet;
import java.util.Map;
import java.util.Set;

/** Classes whose objects are equal by what they hold. */
public class Main {
    static class Point {
        private final int x;
        private final int y;

        Point(int x, int y) {
            this.x = x;
            this.y = y;
        }

        @Override
        public boolean equals(Object other) {
            if (this == other) {
                return true;
            }
            if (other == null || getClass() != other.getClass()) {
                return false;
            }
            Point point = (Point) other;
            return x == point.x && y == point.y;
        }

        @Override
        public int hashCode() {
            return 31 * x + y;
        }
    }

    static class Pixel extends Point {
        Pixel(int x, int y) {
            super(x, y);
        }
    }

    public static void main(String[] args) {
        Set<Point> points = new HashSet<Point>();
        points.add(new Point(1, 2));
        points.add(new Point(1, 2));
        points.add(new Point(2, 1));
        points.add(new Pixel(1, 2));
        System.out.println(points.size() + " " + points.contains(new Point(2, 1)) + " " + points.contains(new Point(3, 3)));
        System.out.println(new Point(1, 2).equals(new Pixel(1, 2)) + " " + new Point(1, 2).equals(null));
        Map<Point, String> names = new HashMap<Point, String>();
        names.put(new Point(0, 0), "origin");
        System.out.println(names.get(new Point(0, 0)) + " " + names.get(new Pixel(0, 0)));
    }
}
