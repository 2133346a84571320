import java.util.ArrayList;
import java.util.List;

/** Shapes that print their classes. */
public class Main {
    abstract static class Shape {
        abstract int area();

        void print() {
            System.out.println(getClass().getName() + " of " + area());
        }
    }

    static class Square extends Shape {
        int area() {
            return 16;
        }
    }

    static class Box extends Shape {
        int area() {
            return 6;
        }

        @Override
        public boolean equals(Object other) {
            return other != null && getClass() == other.getClass();
        }

        @Override
        public int hashCode() {
            return 1;
        }
    }

    public static void main(String[] args) {
        List<Shape> shapes = new ArrayList<Shape>();
        shapes.add(new Square());
        shapes.add(new Box());
        for (Shape shape : shapes) {
            shape.print();
        }
        System.out.println(shapes.contains(new Box()) + " " + (shapes.get(0).getClass() == Square.class));
        System.out.println(shapes.get(1).getClass() + ", " + int[].class);
    }
}
