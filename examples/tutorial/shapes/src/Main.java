import java.util.ArrayList;
import java.util.List;

/** Shapes of a common class, in a list. */
public class Main {
    abstract static class Shape implements Comparable<Shape> {
        abstract int area();

        abstract String name();

        public int compareTo(Shape other) {
            return Integer.valueOf(area()).compareTo(other.area());
        }

        public String toString() {
            return name() + " of " + area();
        }
    }

    static class Rectangle extends Shape {
        private final int width;
        private final int height;

        Rectangle(int width, int height) {
            this.width = width;
            this.height = height;
        }

        int area() {
            return width * height;
        }

        String name() {
            return width == height ? "square" : "rectangle";
        }
    }

    static class Triangle extends Shape {
        private final int base;
        private final int height;

        Triangle(int base, int height) {
            this.base = base;
            this.height = height;
        }

        int area() {
            return base * height / 2;
        }

        String name() {
            return "triangle";
        }
    }

    public static void main(String[] args) {
        List<Shape> shapes = new ArrayList<Shape>();
        shapes.add(new Rectangle(3, 4));
        shapes.add(new Triangle(10, 5));
        shapes.add(new Rectangle(2, 2));
        Shape largest = null;
        int sum = 0;
        for (Shape shape : shapes) {
            sum += shape.area();
            if (largest == null || shape.compareTo(largest) > 0) {
                largest = shape;
            }
        }
        System.out.println(shapes.toString());
        System.out.println("sum " + sum + ", largest " + largest.toString());
    }
}
