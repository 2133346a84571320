/** Classes that start one another in circles, constants that start nothing, interfaces whose fields are asked for, and what each sees. */
public class Main {
    static StringBuilder log = new StringBuilder();
    static int say(String s, int v) { log.append(s).append('=').append(v).append(';'); return v; }
    static void flush() { System.out.println(log.toString()); log = new StringBuilder(); }
    static class Egg {
        static final int FIRST = 7;
        static int a = say("Egg.a", Hen.b + 1);
        static int b = say("Egg.b", FIRST * 2);
        static final String NAME = "egg";
        static final Object THING = new Object();
    }
    static class Hen extends Bird {
        static int a = say("Hen.a", Egg.b);
        static int b = say("Hen.b", Egg.a + 10);
        static { say("Hen.static", a + b); }
    }
    static class Bird {
        static int legs = say("Bird.legs", 2);
        int wings = say("wings", legs);
        { say("block", wings + 1); }
        Bird() { say("Bird()", wings += 1); }
    }
    static class Duck extends Hen {
        static int pond;
        static { pond = say("Duck.pond", 5); if (pond == 5) say("Duck.legs", Duck.legs); }
        int feet = say("feet", wings);
        Duck() { this(say("argument", 3)); say("Duck()", feet); }
        Duck(int n) { super(); feet += n; say("Duck(int)", feet); }
    }
    interface Deep { int D = say("Deep.D", 1); int CONSTANT = 40; }
    interface Deeper extends Deep { int E = say("Deeper.E", 2); }
    static class Both implements Deeper { static int own = say("Both.own", CONSTANT); static int d() { return D; } }
    static class Wide { static long wide = say("Wide.wide", 9) * 1000000000000L; static byte b = (byte) say("Wide.b", 300); static char c = 'c'; static boolean z = say("Wide.z", 1) == 1; static final long K = 1L << 40; static final String S = "s" + K; }
    static class Arrays { static int[] table = { say("t0", 4), say("t1", 5) }; static { say("Arrays", table.length); } }
    static class Lazy {
        private static class Holder { static final Lazy IT = new Lazy(); }
        static int made;
        private Lazy() { say("Lazy()", ++made); }
        static Lazy get() { return Holder.IT; }
    }
    static class Late { static Late only = new Late(); static int count = 5; int seen; Late() { seen = say("Late()", count++); } }
    public static void main(String[] args) {
        say("main", Egg.FIRST);
        say(Egg.NAME, 0);
        flush();
        Egg[] none = new Egg[2];
        say("array", none.length);
        say("cast", (Egg) null == none[1] ? 1 : 0);
        say("instance", (Object) log instanceof StringBuilder ? 1 : 0);
        flush();
        say("bird", Duck.legs);
        flush();
        new Duck();
        flush();
        say("egg", Egg.a + Hen.a + Hen.b);
        flush();
        say("constant", Both.CONSTANT);
        say("both", Both.own);
        flush();
        say("d", Both.d());
        say("e", Deeper.E);
        flush();
        say("wide", Wide.b);
        log.append(Wide.wide).append(Wide.c).append(Wide.z).append(Wide.K).append(Wide.S);
        flush();
        say("arrays", Arrays.table[1]);
        flush();
        say("lazy", Lazy.made);
        Lazy one = Lazy.get(), two = Lazy.get();
        say("same", one == two ? Lazy.made : -1);
        flush();
        say("late", Late.count);
        say("seen", Late.only.seen);
        flush();
    }
}
