/** Each built-in method at ordinary arguments and at the edges, a line for each. */
public class Main {
    static int line;
    static void say(String s) { System.out.print(++line); System.out.print(' '); System.out.println(s); }
    static void say(String what, boolean b) { say(what + ' ' + b); }
    static void say(String what, int n) { say(what + ' ' + n); }
    static void say(String what, long n) { say(what + ' ' + n); }
    static String head(String s) { int i = 0; while (i < s.length() && s.charAt(i) != '@') i++; return s.substring(0, i); }
    static class Plain { }
    static class Named { public String toString() { return "named"; } public int hashCode() { return 42; } public boolean equals(Object o) { return o != null; } }

    static void objects() {
        Object a = new Object(), b = new Plain();
        say("same hash", a.hashCode() == a.hashCode());
        say("other hash", a.hashCode() == b.hashCode());
        say("equals itself", a.equals(a));
        say("equals other", a.equals(b));
        say("equals null", a.equals(null));
        say(head(a.toString()) + " " + head(b.toString()) + " " + head(new Plain[1].toString()) + " " + head(new int[0].toString()) + " " + head(new long[2][3].toString()) + " " + head(new String[1][].toString()));
        say("array equals", new int[1].equals(new int[1]));
        say(new Named().toString() + new Named().hashCode() + new Named().equals(a));
    }
    static String caught(int which, String s) {
        try {
            switch (which) {
                case 0: return String.valueOf(s.charAt(-1));
                case 1: return String.valueOf(s.charAt(s.length()));
                case 2: return s.substring(-1, 1);
                case 3: return s.substring(2, 1);
                case 4: return s.substring(0, s.length() + 1);
                case 5: return s.substring(s.length(), s.length()) + "|";
                case 6: return "" + s.compareTo(null);
                case 7: return "" + s.equals(null);
                case 8: return new StringBuffer((String) null).toString();
                case 9: return ((String) null) + s;
                case 10: return "" + ((String) null).length();
                case 11: return ((Object) null).toString();
                case 12: return ((StringBuilder) null).append(1).toString();
                case 13: return ((Throwable) null).getMessage();
                default: return new Plain().equals(s) + "";
            }
        } catch (StringIndexOutOfBoundsException e) {
            return "outside";
        } catch (NullPointerException e) {
            return "null";
        }
    }
    static void texts() {
        String[] all = { "", "a", "abc", "abd", "ABC", "abcd", "Aa", "BB", "\u00e9\u20ac\uffff", "tab\tand\u0001" };
        for (int i = 0; i < all.length; i++) {
            String s = all[i];
            say("length", s.length());
            say("hash", s.hashCode());
            say("itself", s.toString() == s);
            StringBuilder line = new StringBuilder();
            for (int k = 0; k < all.length; k++) line.append(s.compareTo(all[k])).append(s.equals(all[k]) ? "=" : " ");
            say(line.toString());
            say(s);
            line = new StringBuilder();
            for (int k = 0; k < s.length(); k++) line.append((int) s.charAt(k)).append(' ').append(s.substring(k, s.length()).length()).append(' ');
            say(line.toString());
        }
        for (int i = 0; i < 15; i++) say(caught(i, "text"));
        say("equal contents", "ab".equals(new StringBuffer("a").append('b').toString()));
        say("not the same", "ab" == new StringBuffer("a").append('b').toString());
        say("the same literal", "ab" == "a" + "b");
        say(String.valueOf(-2147483648) + String.valueOf(2147483647) + String.valueOf(0) + String.valueOf(-7));
        say(String.valueOf(-9223372036854775807L - 1) + String.valueOf(9223372036854775807L) + String.valueOf(0L) + String.valueOf(-7L));
        say(String.valueOf('c') + String.valueOf('\u1234') + String.valueOf(true) + String.valueOf(false));
    }
    static void builders() {
        StringBuilder b = new StringBuilder();
        say("empty", b.length());
        say(b.toString() + "|");
        say("answers itself", b.append(1) == b);
        b.append(-2147483648).append(-9223372036854775807L - 1).append(7L).append('x').append('\u20ac').append(true).append(false).append("text").append("").append((String) null);
        say(b.toString());
        say("length", b.length());
        String first = b.toString(), second = b.toString();
        say("equal texts", first.equals(second));
        say("two texts", first == second);
        StringBuffer u = new StringBuffer(), v = new StringBuffer("begun");
        say("empty", u.length());
        say("answers itself", u.append('y') == u);
        u.append(12).append(-12L).append(false).append("buffer").append((String) null).append(v.toString());
        v.append(v.toString()).append(v.length());
        say(u.toString());
        say(v.toString());
        say("lengths", u.length() * 100 + v.length());
        String taken = v.toString();
        v.append(9);
        say(taken);
    }
    static class Own extends Exception {
        Own() { }
        Own(String s) { super(s); }
    }
    static class Told extends RuntimeException { Told(String s) { super(s); } public String getMessage() { return "told " + super.getMessage(); } public String toString() { return "Told with " + getMessage(); } }
    static void throwables() {
        Throwable[] all = { new Throwable(), new Throwable("t"), new Exception(), new Exception("e"), new Error(), new Error("r"), new LinkageError(), new LinkageError("k"), new IncompatibleClassChangeError(), new IncompatibleClassChangeError("h"), new RuntimeException(), new RuntimeException("u"),
            new java.io.IOException(), new java.io.IOException("io"), new ArithmeticException(), new ArithmeticException("a"), new ArrayStoreException(), new ArrayStoreException("s"),
            new ClassCastException(), new ClassCastException("c"), new IndexOutOfBoundsException(), new IndexOutOfBoundsException("i"), new NegativeArraySizeException(), new NegativeArraySizeException("n"),
            new NullPointerException(), new NullPointerException("p"), new IllegalArgumentException(), new IllegalArgumentException("g"), new IllegalStateException(), new IllegalStateException("l"),
            new UnsupportedOperationException(), new UnsupportedOperationException("o"), new ArrayIndexOutOfBoundsException(), new ArrayIndexOutOfBoundsException("x"),
            new StringIndexOutOfBoundsException(), new StringIndexOutOfBoundsException("y"), new Own(), new Own("own"), new Own(null), new Told("me") };
        for (int i = 0; i < all.length; i++) {
            say(all[i].toString() + " / " + all[i].getMessage());
            try {
                throw all[i];
            } catch (IndexOutOfBoundsException e) {
                say("index", e == all[i]);
            } catch (RuntimeException e) {
                say("runtime", e == all[i]);
            } catch (java.io.IOException e) {
                say("input", e == all[i]);
            } catch (Exception e) {
                say("exception", e == all[i]);
            } catch (IncompatibleClassChangeError e) {
                say("change", e == all[i]);
            } catch (LinkageError e) {
                say("linkage", e == all[i]);
            } catch (Error e) {
                say("error", e == all[i]);
            } catch (Throwable e) {
                say("throwable", e == all[i]);
            }
        }
    }
    static void prints() throws java.io.IOException {
        System.out.print(-5); System.out.print(5000000000L); System.out.print('p'); System.out.print(true); System.out.print("text"); System.out.print((String) null); System.out.println();
        System.out.println(-2147483648); System.out.println(-5000000000L); System.out.println('q'); System.out.println(false); System.out.println("line"); System.out.println((String) null); System.out.println("");
        System.out.println("\u00e9\u20ac~\u007f");
        System.out.println('\u0100');
        int c, sum = 0;
        for (int i = 0; (c = System.in.read()) >= 0; i++) sum = sum * 31 + c + i;
        System.out.println(sum);
        System.out.println(System.in.read());
        System.out.println(System.out == System.out);
    }
    public static void main(String[] args) throws java.io.IOException {
        objects();
        texts();
        builders();
        throwables();
        prints();
        say("arguments", args.length);
        System.exit(args.length + 300);
    }
}
