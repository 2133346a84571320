/** Objects that are cloned. */
public class Main {
    static class Point implements Cloneable {
        int x;
        int y;

        Point(int x, int y) {
            this.x = x;
            this.y = y;
        }

        @Override
        public Point clone() throws CloneNotSupportedException {
            return (Point) super.clone();
        }
    }

    static class Line implements Cloneable {
        Point from;
        Point to;
        final int[] marks = {1, 2, 3};

        Line(Point from, Point to) {
            this.from = from;
            this.to = to;
        }

        @Override
        public Line clone() throws CloneNotSupportedException {
            Line copy = (Line) super.clone();
            copy.to = to.clone();
            return copy;
        }
    }

    static class Fixed {
        Object copy() throws CloneNotSupportedException {
            return super.clone();
        }
    }

    public static void main(String[] args) throws CloneNotSupportedException {
        Line line = new Line(new Point(1, 2), new Point(3, 4));
        Line copy = line.clone();
        copy.from.x = 10;
        copy.to.x = 30;
        copy.marks[0] = 7;
        System.out.println(line.from.x + " " + line.to.x + " " + line.marks[0] + " " + copy.to.y);
        System.out.println((line == copy) + " " + (line.from == copy.from) + " " + (line.to == copy.to));
        try {
            new Fixed().copy();
        } catch (CloneNotSupportedException e) {
            System.out.println("no clone");
        }
    }
}
