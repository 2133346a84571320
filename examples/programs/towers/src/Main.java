/** Towers of Hanoi, Ackermann's function, mutual recursion and permutations: deep and many frames, with a frame that fails far down. */
public class Main {
    static int calls;
    static class Bottom extends RuntimeException { final int depth; Bottom(int depth) { this.depth = depth; } }
    static class Peg {
        private Peg below_;
        private int[] discs; int size; final char name;
        Peg(char name, int n) { this.name = name; discs = new int[n]; }
        void put(int d) {
            if (size > 0 && discs[size - 1] < d) throw new IllegalStateException("disc " + d + " on " + discs[size - 1]);
            discs[size++] = d;
        }
        int take() { return discs[--size]; }
    }
    static long signature = 1;
    static int move(int n, Peg from, Peg to, Peg over) {
        calls++;
        if (n == 0) return 0;
        int m = move(n - 1, from, over, to);
        to.put(from.take());
        signature = signature * 31 + from.name * 3 + to.name;
        return m + 1 + move(n - 1, over, to, from);
    }
    static int ackermann(int m, int n) {
        calls++;
        return m == 0 ? n + 1 : n == 0 ? ackermann(m - 1, 1) : ackermann(m - 1, ackermann(m, n - 1));
    }
    static boolean even(int n) { return n == 0 || odd(n - 1); }
    static boolean odd(int n) { return n != 0 && even(n - 1); }
    static int dig(int depth, int limit, long a, Object b) {
        if (depth == limit) throw new Bottom(depth);
        try {
            return dig(depth + 1, limit, a * 3 + depth, b) + 1;
        } finally {
            if (depth % 100 == 0) calls += (int) (a & 1) + 1;
        }
    }
    static int permutations(char[] letters, int from, String[] kept, int count) {
        if (from == letters.length) {
            String s = "";
            for (char c : letters) s += c;
            kept[count % kept.length] = s;
            return count + 1;
        }
        for (int i = from; i < letters.length; i++) {
            char c = letters[i];
            letters[i] = letters[from];
            letters[from] = c;
            count = permutations(letters, from + 1, kept, count);
            letters[from] = letters[i];
            letters[i] = c;
        }
        return count;
    }
    static int countdown(int n) {
        int r = 0;
        if (n > 0) {
            r = countdown(n - 1);
            if (n % 3 == 0) r += countdown(n / 3);
        }
        return r + 1;
    }
    public static void main(String[] args) {
        Peg a = new Peg('a', 10), b = new Peg('b', 10), c = new Peg('c', 10);
        for (int d = 10; d > 0; d--) a.put(d);
        System.out.println(move(10, a, c, b) + " moves, " + calls + " calls, " + signature);
        try {
            a.put(1);
            a.put(2);
        } catch (IllegalStateException e) {
            System.out.println(e.getMessage());
        }
        calls = 0;
        System.out.println(ackermann(2, 9) + " " + ackermann(1, 50) + " " + calls);
        System.out.println(even(400) + " " + odd(401) + " " + even(13));
        try {
            dig(0, 700, 1, "x");
        } catch (Bottom bottom) {
            System.out.println("bottom " + bottom.depth + " " + calls + " " + bottom.toString());
        }
        String[] kept = new String[5];
        System.out.println(permutations(new char[] { 'q', 'u', 'i', 'c', 'k' }, 0, kept, 0));
        for (String s : kept) System.out.print(s + " ");
        System.out.println(countdown(120));
    }
}
