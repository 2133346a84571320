/** A linked list that is built, asked and left behind in each turn: its cells, each made by an item of the loop, are freed when it is. */
public class Main {
    static class Cell {
        final int value;
        final Cell next;

        Cell(int value, Cell next) {
            this.value = value;
            this.next = next;
        }
    }

    static int sumOfSquares(int n) {
        Cell list = null;
        for (int i = 1; i <= n; i++) {
            list = new Cell(i * i, list);
        }
        int sum = 0;
        while (list != null) {
            sum += list.value;
            list = list.next;
        }
        return sum;
    }

    static int spread(int a, int b, int c) {
        Cell list = new Cell(a, new Cell(b, new Cell(c, null)));
        int least = list.value;
        int most = list.value;
        for (Cell cell = list.next; cell != null; cell = cell.next) {
            least = cell.value < least ? cell.value : least;
            most = cell.value > most ? cell.value : most;
        }
        return most - least;
    }

    public static void main(String[] args) {
        int total = 0;
        for (int turn = 0; turn < 200; turn++) {
            total += spread(turn, turn * 7 % 50, turn * 11 % 30);
        }
        System.out.println("spread " + total);
        System.out.println("squares " + sumOfSquares(20));
    }
}
