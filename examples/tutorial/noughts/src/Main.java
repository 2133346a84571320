/** A game of noughts and crosses in which both play as well as they can. */
public class Main {
    private final char[][] board = new char[3][3];
    private int looked;

    Main() {
        for (char[] row : board) {
            java.util.Arrays.fill(row, ' ');
        }
    }

    boolean wins(char player) {
        for (int i = 0; i < 3; i++) {
            if (board[i][0] == player && board[i][1] == player && board[i][2] == player
                    || board[0][i] == player && board[1][i] == player && board[2][i] == player) {
                return true;
            }
        }
        return board[1][1] == player
                && (board[0][0] == player && board[2][2] == player || board[0][2] == player && board[2][0] == player);
    }

    private static char other(char player) {
        return player == 'X' ? 'O' : 'X';
    }

    /** Returns what the player gains at best: 1, 0 or -1; and puts the move there. */
    int best(char player, int free, int[] move) {
        looked++;
        if (wins(other(player))) {
            return -1;
        }
        if (free == 0) {
            return 0;
        }
        int best = -2;
        for (int place = 0; place < 9 && best < 1; place++) {
            char[] row = board[place / 3];
            if (row[place % 3] == ' ') {
                row[place % 3] = player;
                int gain = -best(other(player), free - 1, null);
                row[place % 3] = ' ';
                if (gain > best) {
                    best = gain;
                    if (move != null) {
                        move[0] = place;
                    }
                }
            }
        }
        return best;
    }

    public static void main(String[] args) {
        Main game = new Main();
        game.board[0][0] = 'X';
        game.board[1][1] = 'O';
        game.board[2][2] = 'X';
        char player = 'O';
        for (int free = 6; free > 0; free--) {
            int[] move = new int[1];
            game.best(player, free, move);
            game.board[move[0] / 3][move[0] % 3] = player;
            player = other(player);
        }
        for (char[] row : game.board) {
            System.out.println(row[0] + "|" + row[1] + "|" + row[2]);
        }
        System.out.println(game.wins('X') || game.wins('O') ? "won" : "a draw after " + game.looked);
    }
}
