/** An editor of lines by commands with undo and redo: abstract commands, lists linked both ways, StringBuffers alone. */
public class Main {
    static class Line { Line before, after; StringBuffer text; Line(String s) { text = new StringBuffer(s); } }
    static class Page {
        final Line head = new Line("");
        int lines;
        Page() { head.before = head.after = head; }
        Line at(int n) {
            if (n < 0 || n > lines) throw new IndexOutOfBoundsException();
            Line l = head;
            while (n-- >= 0) l = l.after;
            return l;
        }
        void insert(Line where, Line l) { l.after = where; l.before = where.before; where.before.after = l; where.before = l; lines++; }
        void remove(Line l) { if (l == head) throw new IllegalStateException("head"); l.before.after = l.after; l.after.before = l.before; lines--; }
        void print() {
            int n = 0;
            for (Line l = head.after; l != head; l = l.after) { System.out.print(n++); System.out.print(": "); System.out.println(l.text.toString()); }
            System.out.println("--");
        }
    }
    static abstract class Command {
        Command earlier, later;
        abstract void go(Page p);
        abstract void back(Page p);
    }
    static class Insert extends Command {
        private final int where; private final Line line;
        Insert(int where, String s) { this.where = where; line = new Line(s); }
        void go(Page p) { p.insert(p.at(where), line); }
        void back(Page p) { p.remove(line); }
    }
    static class Delete extends Command {
        private final int where; private Line gone, after;
        Delete(int where) { this.where = where; }
        void go(Page p) { gone = p.at(where); after = gone.after; p.remove(gone); }
        void back(Page p) { p.insert(after, gone); }
    }
    static class Append extends Command {
        private final int where; private final String s; private String old;
        Append(int where, String s) { this.where = where; this.s = s; }
        void go(Page p) { Line l = p.at(where); old = l.text.toString(); l.text.append(s).append('.').append(s.length()).append(':').append((long) old.length()).append(old.equals(s)); }
        void back(Page p) { p.at(where).text = new StringBuffer(old); }
    }
    static class Both extends Command {
        private final Command one, two;
        Both(Command one, Command two) { this.one = one; this.two = two; }
        void go(Page p) { one.go(p); try { two.go(p); } catch (RuntimeException e) { one.back(p); throw e; } }
        void back(Page p) { two.back(p); one.back(p); }
    }
    static Command last;
    static int done;
    static boolean run(Page p, Command c) {
        try {
            c.go(p);
        } catch (IndexOutOfBoundsException e) {
            System.out.println("no such line");
            return false;
        } catch (IllegalStateException e) {
            System.out.println(e.getMessage());
            return false;
        }
        c.earlier = last;
        if (last != null) last.later = c;
        last = c;
        done++;
        return true;
    }
    static boolean undo(Page p) {
        if (last == null) return false;
        last.back(p);
        Command c = last;
        last = c.earlier;
        if (last != null) last.later = c;
        done--;
        return true;
    }
    static boolean redo(Page p) {
        Command c = last == null ? null : last.later;
        if (c == null) return false;
        c.go(p);
        last = c;
        done++;
        return true;
    }
    public static void main(String[] args) {
        Page p = new Page();
        run(p, new Insert(0, "first"));
        run(p, new Insert(1, "second"));
        run(p, new Insert(0, "zero"));
        p.print();
        run(p, new Append(1, "more"));
        run(p, new Delete(0));
        run(p, new Delete(5));
        run(p, new Delete(2));
        p.print();
        run(p, new Both(new Insert(0, "both"), new Append(0, "both")));
        run(p, new Both(new Delete(0), new Append(9, "fails")));
        p.print();
        int n = 0;
        while (undo(p)) n++;
        p.print();
        System.out.println(n);
        for (int i = 0; i < 4; i++) redo(p);
        p.print();
        run(p, new Insert(1, "branch"));
        System.out.println(redo(p));
        undo(p);
        undo(p);
        p.print();
        System.out.println(done);
    }
}
