import java.util.Stack;

/** The towers of Hanoi, with a stack for each peg. */
public class Main {
    private final Stack<Integer>[] pegs;
    private int moves;

    @SuppressWarnings("unchecked")
    Main(int disks) {
        pegs = new Stack[3];
        for (int i = 0; i < 3; i++) {
            pegs[i] = new Stack<Integer>();
        }
        for (int disk = disks; disk > 0; disk--) {
            pegs[0].push(disk);
        }
    }

    void move(int disks, int from, int to) {
        if (disks == 0) {
            return;
        }
        int over = 3 - from - to;
        move(disks - 1, from, over);
        pegs[to].push(pegs[from].pop());
        moves++;
        move(disks - 1, over, to);
    }

    public static void main(String[] args) {
        Main towers = new Main(8);
        towers.move(8, 0, 2);
        System.out.println(towers.moves + " moves: " + towers.pegs[0].toString() + " " + towers.pegs[2].toString());
    }
}
