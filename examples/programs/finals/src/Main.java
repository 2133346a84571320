/** try, catch and finally nested in many ways: returns that finally overrides, rethrown and hidden exceptions, loops left by break. */
public class Main {
    static StringBuffer log = new StringBuffer("log:");
    static int depth;
    static class Own extends Exception {
        private final Throwable cause;
        Own(String m, Throwable cause) { super(m); this.cause = cause; }
        public String toString() { return "Own(" + getMessage() + (cause == null ? "" : " <- " + (cause instanceof ArithmeticException ? "arithmetic" : cause.toString())) + ")"; }
    }
    static class Quiet extends Own {
        Quiet() { super(null, null); }
        public String getMessage() { return "quiet"; }
    }
    static int note(String s) { log.append(' ').append(s); return s.length(); }

    static int overridden(int n) {
        for (int i = 0; ; i++) {
            try {
                note("t" + i);
                if (i == n) return i;
                if (i == 3) throw new IllegalStateException();
            } catch (IllegalStateException e) {
                note("c");
                return -i;
            } finally {
                note("f");
                if (i == 1) continue;
                if (i == 2 && n == 2) break;
            }
        }
        return 99;
    }
    static long nested(Object o, int[] a, int i) throws Own {
        long r = 1;
        try {
            try {
                r = a[i] / (a.length - i - 1);
                String s = (String) o;
                r += s.length();
            } catch (ArrayIndexOutOfBoundsException e) {
                note("index");
                a = null;
                r += a.length;
            } catch (ArithmeticException e) {
                note("zero");
                throw new Own("div", e);
            } finally {
                note("in");
                r = r * 10 + 1;
            }
        } catch (ClassCastException e) {
            note("cast");
            r += 5;
        } catch (NullPointerException e) {
            note("null");
            throw new Own("lost", null);
        } finally {
            note("out");
            r = r * 10 + 2;
            depth++;
        }
        return r;
    }
    static int hides() {
        try {
            throw new Error("first");
        } finally {
            try {
                int[] none = new int[-1];
                note("never" + none.length);
            } catch (NegativeArraySizeException e) {
                return note("hidden");
            }
        }
    }
    static void rethrow(int n) throws Own {
        try {
            if (n > 0) rethrow(n - 1);
            else throw new Quiet();
        } catch (Quiet q) {
            note("q" + n);
            if (n == 2) throw new Own("at two", q);
            throw q;
        } catch (Own o) {
            note("o" + n);
            throw o;
        } finally {
            if (n % 2 == 0) note("even");
        }
    }
    static boolean chain(Object[] things, int i) {
        try {
            Object t = things[i];
            if (t instanceof RuntimeException) throw (RuntimeException) t;
            if (t instanceof Error) throw (Error) t;
            return t.equals(things);
        } catch (UnsupportedOperationException e) {
            note("unsupported");
        } catch (IllegalArgumentException e) {
            note("argument " + e.getMessage());
        } catch (RuntimeException e) {
            note(e instanceof NullPointerException ? "null" : e instanceof ArrayIndexOutOfBoundsException ? "index" : e.toString());
            return true;
        }
        return false;
    }
    static void flush(String title) {
        System.out.println(title + " " + log.toString());
        log = new StringBuffer();
    }
    public static void main(String[] args) {
        for (int n = 0; n < 5; n++) flush("overridden " + overridden(n));
        int[] a = { 10, 20, 30 };
        Object[] os = { "text", null, new Own("o", null) };
        for (int i = -1; i < 4; i++)
            for (int k = 0; k < os.length; k++) {
                try {
                    note("= " + nested(os[k], a, i));
                } catch (Own own) {
                    note(own.toString());
                }
                flush(i + "," + k);
            }
        flush("hides " + hides());
        try {
            rethrow(4);
        } catch (Quiet q) {
            note("quiet");
        } catch (Own o) {
            note(o.toString());
        }
        flush("rethrow");
        Object[] things = { new UnsupportedOperationException("u"), new IllegalArgumentException(), new IllegalArgumentException("why"),
            new StringIndexOutOfBoundsException("s"), null, "x", new Error("e"), "y" };
        for (int i = 0; i <= things.length; i++) {
            try {
                note(chain(things, i) ? "true" : "false");
            } catch (Error e) {
                note("error " + e.getMessage());
            }
        }
        flush("chain");
        System.out.println(depth);
        try {
            throw null;
        } catch (NullPointerException e) {
            System.out.println("thrown null");
        }
    }
}
