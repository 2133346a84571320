/** Literals of classes, interfaces and arrays, the names of classes, and the classes of objects. */
public class Main {
    interface Shape {
        int sides();
    }

    static class Square implements Shape {
        public int sides() {
            return 4;
        }
    }

    static class Tile extends Square {
    }

    /** Its own method of this name hides no other one, since its parameter differs. */
    static class Named {
        String getClass(int number) {
            return new StringBuilder().append("named ").append(number).toString();
        }
    }

    /** As compilers take it, an inner object asks for the class of the outer one. */
    class Inner {
        int number() {
            return 7;
        }
    }

    static final Class FIRST = Main.class;
    static Class[] kept = new Class[3];
    static int line;

    static void say(String text) {
        System.out.println(new StringBuilder().append(++line).append(' ').append(text).toString());
    }

    static void say(String what, boolean is) {
        System.out.println(new StringBuilder().append(++line).append(' ').append(what).append(' ').append(is).toString());
    }

    /** The name of the class of an object, or what is thrown where there is none. */
    static String named(Object object) {
        try {
            return object.getClass().getName();
        } catch (NullPointerException e) {
            return "of null";
        }
    }

    static String cast(Object object) {
        try {
            return ((Class) object).getName();
        } catch (ClassCastException e) {
            return "no class";
        }
    }

    static void literals() {
        say(Main.class.getName());
        say(Shape.class.getName());
        say(Square.class.getName());
        say(Object.class.getName());
        say(String.class.getName());
        say(Class.class.getName());
        say(Cloneable.class.getName());
        say(java.io.PrintStream.class.getName());
        say(int[].class.getName());
        say(long[][].class.getName());
        say(boolean[].class.getName());
        say(char[].class.getName());
        say(byte[].class.getName());
        say(short[].class.getName());
        say(String[].class.getName());
        say(Tile[][][].class.getName());
        say(Class[].class.getName());
        say(RuntimeException.class.getName());
    }

    static void classes() {
        say(named(new Object()));
        say(named(new Tile()));
        say(named("text"));
        say(named(new StringBuilder()));
        say(named(new StringBuffer("text")));
        say(named(System.out));
        say(named(new int[0]));
        say(named(new char[2][3]));
        say(named(new Shape[1]));
        say(named(new Tile[2][][]));
        say(named(Main.class));
        say(named(new Class[1]));
        say(named(new Main().new Inner()));
        say(named(null));
        try {
            say(named(kept[0].getName()));
        } catch (NullPointerException e) {
            say(named(e));
        }
        try {
            Object square = new Square();
            say(((Tile) square).getClass().getName());
        } catch (ClassCastException e) {
            say(named(e));
        }
        try {
            say(new int[1][kept.length].getClass().getName());
            say(named(new int[line / (line - line)]));
        } catch (ArithmeticException e) {
            say(named(e));
        }
    }

    static void comparisons() {
        Object square = new Square();
        Object tile = new Tile();
        say("same literal", Main.class == FIRST);
        say("equal literal", Main.class.equals(FIRST));
        say("same class", square.getClass() == Square.class);
        say("of the one below", tile.getClass() == Square.class);
        say("of two", tile.getClass() == new Tile().getClass());
        say("of another", square.getClass().equals(tile.getClass()));
        say("of an array", new int[1].getClass() == int[].class);
        say("of another array", new int[1].getClass() == (Object) long[].class);
        say("of arrays of the one below", new Tile[1].getClass() == (Object) Square[].class);
        say("of texts", "one".getClass() == new StringBuilder().append("t").toString().getClass());
        say("of a class", square.getClass().getClass() == Class.class);
        say("names of one class", Main.class.getName().equals(FIRST.getName()));
        say("a class is one", (Object) Main.class instanceof Class);
        say("a class is a text", (Object) Main.class instanceof String);
        say("a text is a class", (Object) "text" instanceof Class);
        say("an array of classes", (Object) kept instanceof Object[]);
        say("null is a class", null instanceof Class);
        say(cast(Main.class));
        say(cast("Main"));
        say(cast(new Class[1]));
    }

    static void stores() {
        kept[0] = int[].class;
        kept[1] = "".getClass();
        kept[2] = kept.getClass();
        for (int i = 0; i < kept.length; i++) {
            say(kept[i].getName());
        }
        Object[] objects = kept;
        try {
            objects[0] = "text";
            say("stored");
        } catch (ArrayStoreException e) {
            say(named(e));
        }
        say(new Named().getClass(3));
        say(new Named().getClass().getName());
        int same = 0;
        for (int i = 0; i < 300; i++) {
            Object object = i % 2 == 0 ? (Object) new Square() : (Object) new Tile();
            if (object.getClass() == Square.class) {
                same++;
            }
        }
        say(new StringBuilder().append(same).append(" of 300").toString());
        say(new StringBuilder().append(new Main().new Inner().number()).append(" of an inner object").toString());
    }

    public static void main(String[] args) {
        literals();
        classes();
        comparisons();
        stores();
    }
}
