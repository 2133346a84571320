/** Arrays of arrays of every kind, made whole and in part, ragged, shared between rows, of no length, of wrong length, and stored wrongly. */
public class Main {
    static int[][][] cube(int a, int b, int c) {
        int[][][] m = new int[a][b][c];
        for (int i = 0; i < a; i++) for (int k = 0; k < b; k++) for (int l = 0; l < c; l++) m[i][k][l] = i * 100 + k * 10 + l;
        return m;
    }
    static long[][] times(long[][] x, long[][] y) {
        long[][] r = new long[x.length][y[0].length];
        for (int i = 0; i < x.length; i++)
            for (int k = 0; k < y[0].length; k++)
                for (int l = 0; l < y.length; l++) r[i][k] += x[i][l] * y[l][k];
        return r;
    }
    static long[][] power(long[][] m, int n) {
        if (n == 1) return m;
        long[][] half = power(m, n / 2), r = times(half, half);
        return n % 2 == 0 ? r : times(r, m);
    }
    static String show(Object o) {
        StringBuilder s = new StringBuilder();
        if (o == null) return "null";
        if (o instanceof Object[]) {
            s.append('[');
            Object[] a = (Object[]) o;
            for (int i = 0; i < a.length; i++) s.append(i == 0 ? "" : " ").append(show(a[i]));
            return s.append(']').toString();
        }
        if (o instanceof int[]) for (int v : (int[]) o) s.append(v).append(',');
        else if (o instanceof byte[]) for (byte v : (byte[]) o) s.append(v).append('b');
        else if (o instanceof char[]) for (char v : (char[]) o) s.append(v == 0 ? '0' : v);
        else if (o instanceof long[]) for (long v : (long[]) o) s.append(v).append('L');
        else if (o instanceof boolean[]) for (boolean v : (boolean[]) o) s.append(v);
        else if (o instanceof short[]) for (short v : (short[]) o) s.append(v).append('s');
        else s.append(o.toString());
        return s.toString();
    }
    static int attempt(int which) {
        int[] none = null;
        Object[] objects = new Integer_[2];
        int[][] deep = new int[2][];
        try {
            switch (which) {
                case 0: return none.length;
                case 1: return none[0];
                case 2: none[which] = attempt(9); return 0;
                case 3: objects[0] = new Main(); return 1;
                case 4: objects[1] = null; objects[0] = new Small(); return 2;
                case 5: return deep[1][0];
                case 6: return new int[3][which - 7][2].length;
                case 7: return new int[0][-1].length;
                case 8: return new int[-1].length;
                case 9: return new int[2][3][].length;
                case 10: return ((int[][]) (Object) objects).length;
                case 11: return ((Object[]) (Object) deep).length;
                case 12: return ((Integer_[]) objects)[1] == null ? 12 : 13;
                case 13: return ((Small[]) objects).length;
                case 14: { Object[] o = deep; o[0] = new int[5]; return deep[0].length; }
                case 15: { Object[] o = deep; o[0] = new long[5]; return 0; }
                case 16: { Object[][] o = new Small[3][4]; o[2] = new Integer_[1]; return 0; }
                case 17: { Cloneable[] c = new int[2][2]; c[0] = new char[0]; return 0; }
                case 18: { Cloneable[] c = new Cloneable[2]; c[0] = new char[9]; return ((char[]) c[0]).length; }
                default: return deep[which].length;
            }
        } catch (NullPointerException e) { return -1; }
        catch (ArrayStoreException e) { return -2; }
        catch (NegativeArraySizeException e) { return -3; }
        catch (ClassCastException e) { return -4; }
        catch (ArrayIndexOutOfBoundsException e) { return -5; }
    }
    static class Integer_ { }
    static class Small extends Integer_ { }
    public static void main(String[] args) {
        System.out.println(show(cube(2, 3, 2)));
        System.out.println(show(new byte[2][3]) + show(new char[1][4]) + show(new short[3][1]) + show(new boolean[2][2]) + show(new long[2][2]) + show(new String[2][3]) + show(new int[2][0][5]) + show(new int[3][2][]));
        int[][] ragged = new int[6][];
        for (int i = 0; i < ragged.length; i++) {
            ragged[i] = new int[i + 1];
            ragged[i][0] = ragged[i][i] = 1;
            for (int k = 1; k < i; k++) ragged[i][k] = ragged[i - 1][k - 1] + ragged[i - 1][k];
        }
        System.out.println(show(ragged));
        ragged[0] = ragged[5];
        ragged[0][2]++;
        System.out.println(show(ragged[5]));
        System.out.println(show(power(new long[][] { { 1, 1 }, { 1, 0 } }, 90)));
        System.out.println(show(times(new long[][] { { 1, 2, 3 } }, new long[][] { { 4 }, { 5 }, { 6 } })));
        StringBuilder s = new StringBuilder();
        for (int i = 0; i < 20; i++) s.append(attempt(i)).append(' ');
        System.out.println(s.toString());
        Object[] itself = new Object[3];
        itself[0] = itself;
        itself[1] = new Object[][] { itself, null };
        System.out.println(((Object[]) ((Object[]) itself[1])[0])[0] == itself);
        int[][][][][] five = new int[2][1][2][1][2];
        five[1][0][1][0][1] = 5;
        System.out.println(show(five));
    }
}
