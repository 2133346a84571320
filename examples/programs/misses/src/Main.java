/** Calls a method of an interface of an object whose class was compiled again without that interface (src/later), and catches what is thrown or lets it leave main. */
public class Main {
    static int calls;

    static int asked(Asked asked) {
        calls++;
        return asked.ask();
    }

    static int caught(Asked asked) {
        try {
            return asked(asked);
        } catch (IncompatibleClassChangeError e) {
            return -1;
        }
    }

    static String kind(Asked asked) {
        try {
            asked.ask();
            return "none";
        } catch (RuntimeException e) {
            return "runtime";
        } catch (LinkageError e) {
            return e instanceof IncompatibleClassChangeError ? "linkage, of a changed class" : "linkage";
        } finally {
            calls++;
        }
    }

    public static void main(String[] args) {
        System.out.println(caught(new Kept()));
        System.out.println(caught(new Changed()));
        System.out.println(kind(new Kept()));
        System.out.println(kind(new Changed()));
        System.out.println(new Changed().ask());
        System.out.println("calls " + calls);
        if (args.length > 0) {
            System.out.println("leaves " + asked(new Changed()));
        }
    }
}

interface Asked {
    int ask();
}

class Kept implements Asked {
    public int ask() {
        return 7;
    }
}
