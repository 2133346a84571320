import java.util.ArrayList;
import java.util.List;
import java.util.Stack;

/** The towers of Hanoi with three stacks, where each move is checked. */
public class Main {
    private final List<Stack<Integer>> towers = new ArrayList<Stack<Integer>>();
    private int moves;

    Main(int height) {
        for (int i = 0; i < 3; i++) {
            towers.add(new Stack<Integer>());
        }
        for (int disc = height; disc > 0; disc--) {
            towers.get(0).push(disc);
        }
    }

    void move(int from, int to) {
        Stack<Integer> target = towers.get(to);
        int disc = towers.get(from).pop();
        if (!target.isEmpty() && target.peek() < disc) {
            throw new IllegalStateException("disc " + disc + " on " + target.peek().intValue());
        }
        target.push(disc);
        moves++;
    }

    void solve(int height, int from, int to) {
        if (height > 0) {
            int rest = 3 - from - to;
            solve(height - 1, from, rest);
            move(from, to);
            solve(height - 1, rest, to);
        }
    }

    void print() {
        StringBuilder line = new StringBuilder().append(moves).append(':');
        for (Stack<Integer> tower : towers) {
            line.append(" |");
            for (int disc : tower) {
                line.append(disc);
            }
        }
        System.out.println(line.toString());
    }

    public static void main(String[] args) {
        Main hanoi = new Main(3);
        hanoi.print();
        hanoi.solve(3, 0, 2);
        hanoi.print();
        Main tall = new Main(12);
        tall.solve(11, 0, 1);
        tall.move(0, 2);
        tall.print();
        tall.solve(11, 1, 2);
        tall.print();
        try {
            tall.move(2, 0);
            tall.move(2, 0);
        } catch (IllegalStateException e) {
            System.out.println("refused: " + e.getMessage());
        }
    }
}
