/** Copies a board by clone, and a point by its own clone. */
public class Main {
    static class Point implements Cloneable {
        int x = 1;
        int[] marks = {4, 5};

        @Override
        public Point clone() {
            try {
                Point copy = (Point) super.clone();
                copy.marks = marks.clone();
                return copy;
            } catch (CloneNotSupportedException e) {
                throw new IllegalStateException(e.getMessage());
            }
        }
    }

    public static void main(String[] args) {
        int[] board = {1, 2, 3};
        int[] copy = board.clone();
        copy[0] = 9;
        System.out.println(board[0] + " " + copy[0] + " " + copy.length);
        Point point = new Point();
        Point other = point.clone();
        other.x = 7;
        other.marks[0] = 0;
        System.out.println(point.x + " " + point.marks[0] + " " + other.x + " " + other.marks[1]);
    }
}
