/** Virtual calls: shapes of three classes and one interface in an array. */
public class Main {
    interface Scaled {
        int scaled(int by);
    }

    abstract static class Shape implements Scaled {
        abstract int area();

        public int scaled(int by) {
            return area() * by;
        }
    }

    static final class Square extends Shape {
        final int side;

        Square(int side) {
            this.side = side;
        }

        int area() {
            return side * side;
        }
    }

    static final class Oblong extends Shape {
        final int width;
        final int height;

        Oblong(int width, int height) {
            this.width = width;
            this.height = height;
        }

        int area() {
            return width * height;
        }
    }

    static final class Dot extends Shape {
        int area() {
            return 1;
        }
    }

    public static void main(String[] arguments) {
        Shape[] shapes = new Shape[99];
        for (int i = 0; i < shapes.length; i += 3) {
            shapes[i] = new Square(i);
            shapes[i + 1] = new Oblong(i, i + 1);
            shapes[i + 2] = new Dot();
        }
        int sum = 0;
        for (int round = 0; round < 120000; round++) {
            for (int i = 0; i < shapes.length; i++) {
                sum += shapes[i].area();
                if ((i & 7) == 0) {
                    Scaled scaled = shapes[i];
                    sum ^= scaled.scaled(round);
                }
            }
        }
        System.out.println(sum);
    }
}
