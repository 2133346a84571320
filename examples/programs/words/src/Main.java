/** A tree of letters over the words of the input: counts, prefixes, the longest chain of words, anagrams by sorted letters. */
public class Main {
    static class Node {
        Node child, next;
        final char letter;
        int count;
        Node(char letter, Node next) { this.letter = letter; this.next = next; }
        Node to(char c, boolean make) {
            Node before = null, at = child;
            while (at != null && at.letter < c) { before = at; at = at.next; }
            if (at != null && at.letter == c || !make) return at != null && at.letter == c ? at : null;
            Node n = new Node(c, at);
            if (before == null) child = n; else before.next = n;
            return n;
        }
    }
    interface Visit { boolean word(String w, int count); }
    static final Node root = new Node('\0', null);
    static int words, nodes;
    static void add(String w) {
        Node n = root;
        for (int i = 0; i < w.length(); i++) n = n.to(w.charAt(i), true);
        n.count++;
        words++;
    }
    static boolean each(Node n, String prefix, Visit v) {
        if (n.count > 0 && !v.word(prefix, n.count)) return false;
        for (Node c = n.child; c != null; c = c.next) if (!each(c, prefix + c.letter, v)) return false;
        return true;
    }
    static Node at(String prefix) {
        Node n = root;
        for (int i = 0; n != null && i < prefix.length(); i++) n = n.to(prefix.charAt(i), false);
        return n;
    }
    static String sorted(String w) {
        char[] a = new char[w.length()];
        for (int i = 0; i < a.length; i++) {
            int k = i;
            for (char c = w.charAt(i); k > 0 && a[k - 1] > c; k--) a[k] = a[k - 1];
            a[k] = w.charAt(i);
        }
        StringBuilder s = new StringBuilder();
        for (char c : a) s.append(c);
        return s.toString();
    }
    static class Group { final String key; String all; Group next; Group(String key, String all, Group next) { this.key = key; this.all = all; this.next = next; } }
    static class Groups implements Visit {
        Group[] table = new Group[32];
        public boolean word(String w, int count) {
            String key = sorted(w);
            int h = key.hashCode() & 31;
            for (Group g = table[h]; g != null; g = g.next) if (g.key.equals(key)) { g.all = g.all + " " + w; return true; }
            table[h] = new Group(key, w, table[h]);
            return true;
        }
    }
    static String longest = "";
    static void chain(Node n, String path, int length, int[] best) {
        if (n.count > 0) length++;
        if (length > best[0]) { best[0] = length; longest = path; }
        for (Node c = n.child; c != null; c = c.next) { nodes++; chain(c, path + c.letter, length, best); }
    }
    public static void main(String[] args) throws java.io.IOException {
        StringBuffer word = new StringBuffer();
        for (int c; ; ) {
            c = System.in.read();
            if (c >= 'A' && c <= 'Z') c += 32;
            if (c >= 'a' && c <= 'z') { word.append((char) c); continue; }
            if (word.length() > 0) { add(word.toString()); word = new StringBuffer(); }
            if (c < 0) break;
        }
        final int[] most = { 1 };
        each(root, "", new Visit() { public boolean word(String w, int count) { if (count > most[0]) most[0] = count; return true; } });
        for (int n = most[0]; n > 1; n--) {
            final int wanted = n;
            each(root, "", new Visit() { public boolean word(String w, int count) { if (count == wanted) System.out.print(w + " " + count + " "); return true; } });
        }
        System.out.println();
        String[] prefixes = { "t", "st", "xy", "" };
        for (String p : prefixes) {
            final int[] few = { 3 };
            Node n = at(p);
            System.out.print(p + ":");
            if (n != null) each(n, p, new Visit() { public boolean word(String w, int count) { System.out.print(" " + w); return --few[0] > 0; } });
            System.out.println();
        }
        Groups groups = new Groups();
        each(root, "", groups);
        for (Group g : groups.table) for (; g != null; g = g.next) if (g.all.length() > g.key.length()) System.out.println(g.all);
        int[] best = { 0 };
        chain(root, "", 0, best);
        System.out.println(words + " words, " + nodes + " nodes, chain of " + best[0] + " to " + longest);
    }
}
