/** Huffman codes: counts the bytes of the input, builds the tree by a heap, packs into bits, unpacks, and compares. */
public class Main {
    static abstract class Node {
        final int weight, order;
        static int made;
        Node(int weight) { this.weight = weight; this.order = made++; }
        boolean before(Node other) { return weight < other.weight || weight == other.weight && order < other.order; }
        abstract void name(String[] codes, String prefix);
        abstract int depth();
    }
    static class Leaf extends Node {
        final char symbol;
        Leaf(char symbol, int weight) { super(weight); this.symbol = symbol; }
        void name(String[] codes, String prefix) { codes[symbol] = prefix.length() == 0 ? "0" : prefix; }
        int depth() { return 0; }
    }
    static class Fork extends Node {
        final Node zero, one;
        Fork(Node zero, Node one) { super(zero.weight + one.weight); this.zero = zero; this.one = one; }
        void name(String[] codes, String prefix) { zero.name(codes, prefix + '0'); one.name(codes, prefix + '1'); }
        int depth() { int a = zero.depth(), b = one.depth(); return (a > b ? a : b) + 1; }
    }
    static class Heap {
        private Node[] nodes = new Node[1];
        int size;
        void add(Node n) {
            if (size == nodes.length) {
                Node[] more = new Node[size << 1];
                for (int i = 0; i < size; i++) more[i] = nodes[i];
                nodes = more;
            }
            int at = size++;
            while (at > 0 && n.before(nodes[(at - 1) / 2])) {
                nodes[at] = nodes[(at - 1) / 2];
                at = (at - 1) / 2;
            }
            nodes[at] = n;
        }
        Node take() {
            Node least = nodes[0], last = nodes[--size];
            nodes[size] = null;
            int at = 0, child;
            while ((child = 2 * at + 1) < size) {
                if (child + 1 < size && nodes[child + 1].before(nodes[child])) child++;
                if (last.before(nodes[child])) break;
                nodes[at] = nodes[child];
                at = child;
            }
            if (size > 0) nodes[at] = last;
            return least;
        }
    }
    static class Bits {
        byte[] bytes = new byte[8];
        int length;
        void put(String code) {
            for (int i = 0; i < code.length(); i++, length++) {
                if (length / 8 == bytes.length) {
                    byte[] more = new byte[bytes.length * 2];
                    for (int k = 0; k < bytes.length; k++) more[k] = bytes[k];
                    bytes = more;
                }
                if (code.charAt(i) == '1') bytes[length >> 3] |= 128 >>> (length & 7);
            }
        }
        boolean at(int i) { return (bytes[i >> 3] << (i & 7) & 128) != 0; }
    }
    public static void main(String[] args) throws java.io.IOException {
        StringBuilder all = new StringBuilder();
        int[] counts = new int[128];
        for (int c; (c = System.in.read()) >= 0;) { all.append((char) c); counts[c]++; }
        String text = all.toString();
        Heap heap = new Heap();
        for (char c = 0; c < 128; c++) if (counts[c] > 0) heap.add(new Leaf(c, counts[c]));
        while (heap.size > 1) heap.add(new Fork(heap.take(), heap.take()));
        Node tree = heap.take();
        String[] codes = new String[128];
        tree.name(codes, "");
        Bits bits = new Bits();
        for (int i = 0; i < text.length(); i++) bits.put(codes[text.charAt(i)]);
        System.out.println(text.length() * 8 + " bits become " + bits.length + ", depth " + tree.depth());
        for (int c = 0; c < 128; c++)
            if (codes[c] != null && counts[c] > 12) System.out.println((c == ' ' ? "space" : c == '\n' ? "line" : String.valueOf((char) c)) + " " + counts[c] + " " + codes[c]);
        StringBuffer back = new StringBuffer();
        Node n = tree;
        for (int i = 0; i < bits.length; i++) {
            n = bits.at(i) ? ((Fork) n).one : ((Fork) n).zero;
            if (n instanceof Leaf) { back.append(((Leaf) n).symbol); n = tree; }
        }
        System.out.println(back.toString().equals(text) ? "the same again" : "different");
        int sum = 0;
        for (int i = 0; i <= bits.length / 8; i++) sum = sum * 31 + bits.bytes[i];
        System.out.println("checksum " + sum + ", text " + text.hashCode());
    }
}
