import java.util.ArrayList;
import java.util.Arrays;
import java.util.Collection;
import java.util.List;

/** Generic classes and methods with bounded types and wildcards. */
public class Main {
    static class Pair<A, B> {
        private final A first;
        private final B second;

        Pair(A first, B second) {
            this.first = first;
            this.second = second;
        }

        static <A, B> Pair<A, B> of(A first, B second) {
            return new Pair<A, B>(first, second);
        }

        Pair<B, A> swapped() {
            return of(second, first);
        }

        @Override
        public String toString() {
            return "(" + first.toString() + ", " + second.toString() + ")";
        }
    }

    abstract static class Shape implements Comparable<Shape> {
        abstract int area();

        public int compareTo(Shape other) {
            return area() - other.area();
        }

        @Override
        public String toString() {
            return "shape of " + area();
        }
    }

    static class Square extends Shape {
        private final int side;

        Square(int side) {
            this.side = side;
        }

        int area() {
            return side * side;
        }
    }

    static class Box extends Shape {
        private final int width;
        private final int height;

        Box(int width, int height) {
            this.width = width;
            this.height = height;
        }

        int area() {
            return width * height;
        }
    }

    static <T extends Comparable<? super T>> T greatest(Collection<? extends T> elements) {
        T greatest = null;
        for (T element : elements) {
            if (greatest == null || element.compareTo(greatest) > 0) {
                greatest = element;
            }
        }
        return greatest;
    }

    static long total(List<? extends Number> numbers) {
        long total = 0;
        for (Number number : numbers) {
            total += number.longValue();
        }
        return total;
    }

    static void addNumbers(List<? super Integer> list, int... numbers) {
        for (int number : numbers) {
            list.add(number);
        }
    }

    public static void main(String[] args) {
        System.out.println(greatest(Arrays.asList(3, 9, 4)).toString());
        System.out.println(greatest(Arrays.asList(new Square(3), new Square(5), new Square(4))).toString());
        System.out.println(greatest(Arrays.<Shape>asList(new Square(3), new Box(2, 7))).toString());
        System.out.println(greatest(new ArrayList<Integer>()) == null ? "none" : "some");
        List<Number> numbers = new ArrayList<Number>();
        addNumbers(numbers, 1, 2, 3);
        numbers.add(4000000000L);
        numbers.add((short) -7);
        System.out.println(total(numbers) + " " + total(Arrays.asList(5L, 6L)));
        Pair<String, Integer> pair = Pair.of("seven", 7);
        Pair<Integer, String> swapped = pair.swapped();
        int seven = swapped.first;
        System.out.println(pair.toString() + " " + swapped.toString() + " " + (seven + 1));
        System.out.println(Pair.of(pair, swapped).toString());
    }
}
