/** Reads tables of numbers from the input, keeps sums by name in a sorted list, and prints them aligned; bad lines are told and skipped. */
public class Main {
    static class Line {
        final String name; long sum; int count, least, most; Line next;
        Line(String name, Line next) { this.name = name; this.next = next; least = 2147483647; most = -2147483648; }
        void add(int v) { sum += v; count++; if (v < least) least = v; if (v > most) most = v; }
    }
    static class Bad extends Exception { Bad(String m) { super(m); } }
    static Line lines;
    static int number;
    static String readLine() throws java.io.IOException {
        StringBuffer s = new StringBuffer();
        int c = System.in.read();
        if (c < 0) return null;
        while (c >= 0 && c != '\n') {
            if (c != '\r') s.append((char) c);
            c = System.in.read();
        }
        number++;
        return s.toString();
    }
    static Line named(String name) {
        Line before = null, at = lines;
        while (at != null && at.name.compareTo(name) < 0) { before = at; at = at.next; }
        if (at != null && at.name.equals(name)) return at;
        Line l = new Line(name, at);
        if (before == null) lines = l; else before.next = l;
        return l;
    }
    static int parse(String s, int from, int to) throws Bad {
        int sign = 1;
        if (from < to && (s.charAt(from) == '-' || s.charAt(from) == '+')) sign = s.charAt(from++) == '-' ? -1 : 1;
        if (from == to) throw new Bad("no digits");
        long v = 0;
        for (int i = from; i < to; i++) {
            int d = s.charAt(i) - '0';
            if (d < 0 || d > 9) throw new Bad("no digit: " + s.charAt(i));
            v = v * 10 + d;
            if (v > 2147483648L) throw new Bad("too large");
        }
        v *= sign;
        if (v != (int) v) throw new Bad("too large");
        return (int) v;
    }
    static void take(String s) throws Bad {
        int colon = 0;
        while (s.charAt(colon) != ':') colon++;
        String name = s.substring(0, colon);
        if (name.length() == 0) throw new Bad("no name");
        int n = 0;
        for (int i = colon + 1; i < s.length();) {
            while (i < s.length() && (s.charAt(i) == ' ' || s.charAt(i) == '\t')) i++;
            int k = i;
            while (k < s.length() && s.charAt(k) != ' ' && s.charAt(k) != '\t') k++;
            if (k == i) break;
            int v = parse(s, i, k);
            named(name).add(v);
            n++;
            i = k;
        }
        if (n == 0) named(name);
    }
    static String pad(String s, int width) {
        StringBuilder b = new StringBuilder();
        for (int i = s.length(); i < width; i++) b.append(' ');
        return b.append(s).toString();
    }
    public static void main(String[] args) throws java.io.IOException {
        for (int i = 0; i < args.length; i++) System.out.println("argument " + i + " [" + args[i] + "] " + args[i].length());
        for (String s; (s = readLine()) != null;) {
            try {
                if (s.length() > 0 && s.charAt(0) != '#') take(s);
            } catch (Bad b) {
                System.out.println("line " + number + ": " + b.getMessage());
            } catch (StringIndexOutOfBoundsException e) {
                System.out.println("line " + number + ": no colon in \"" + s + '"');
            }
        }
        for (Line l = lines; l != null; l = l.next) {
            if (l.count == 0) { System.out.println(pad(l.name, 10) + pad("-", 12)); continue; }
            System.out.println(pad(l.name, 10) + pad(String.valueOf(l.sum), 12) + pad(String.valueOf(l.count), 5) + pad(String.valueOf(l.least), 12) + pad(String.valueOf(l.most), 12) + pad(String.valueOf(l.sum / l.count), 12));
        }
        System.out.println(number + " lines");
    }
}
