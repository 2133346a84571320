import java.util.HashMap;
import java.util.Map;
import java.util.PriorityQueue;
import java.util.TreeMap;

/** A Huffman code of a text: a tree made by a priority queue, codes in a map, and the text back again. */
public class Main {
    static class Node implements Comparable<Node> {
        final int count;
        final char letter;
        final Node zero;
        final Node one;

        Node(int count, char letter, Node zero, Node one) {
            this.count = count;
            this.letter = letter;
            this.zero = zero;
            this.one = one;
        }

        public int compareTo(Node other) {
            return count != other.count ? count - other.count : letter - other.letter;
        }

        void codes(String prefix, Map<Character, String> codes) {
            if (zero == null) {
                codes.put(letter, prefix.length() == 0 ? "0" : prefix);
            } else {
                zero.codes(prefix + "0", codes);
                one.codes(prefix + "1", codes);
            }
        }
    }

    static Node tree(String text) {
        Map<Character, Integer> counts = new HashMap<Character, Integer>();
        for (int i = 0; i < text.length(); i++) {
            Integer count = counts.get(text.charAt(i));
            counts.put(text.charAt(i), count == null ? 1 : count + 1);
        }
        PriorityQueue<Node> queue = new PriorityQueue<Node>();
        for (Map.Entry<Character, Integer> entry : counts.entrySet()) {
            queue.add(new Node(entry.getValue(), entry.getKey(), null, null));
        }
        while (queue.size() > 1) {
            Node zero = queue.poll();
            Node one = queue.poll();
            char least = zero.letter < one.letter ? zero.letter : one.letter;
            queue.add(new Node(zero.count + one.count, least, zero, one));
        }
        return queue.poll();
    }

    static String decoded(String bits, Node tree) {
        StringBuilder text = new StringBuilder();
        Node node = tree;
        for (int i = 0; i < bits.length(); i++) {
            node = node.zero == null ? node : bits.charAt(i) == '0' ? node.zero : node.one;
            if (node.zero == null) {
                text.append(node.letter);
                node = tree;
            }
        }
        return text.toString();
    }

    static void show(String text) {
        Node tree = tree(text);
        Map<Character, String> codes = new TreeMap<Character, String>();
        tree.codes("", codes);
        StringBuilder bits = new StringBuilder();
        for (int i = 0; i < text.length(); i++) {
            bits.append(codes.get(text.charAt(i)));
        }
        for (Map.Entry<Character, String> entry : codes.entrySet()) {
            System.out.println("  '" + entry.getKey().charValue() + "' " + entry.getValue());
        }
        boolean isSame = decoded(bits.toString(), tree).equals(text);
        System.out.println(text.length() + " letters, " + bits.length() + " bits, " + (isSame ? "the same again" : "not the same"));
    }

    public static void main(String[] args) {
        show("abracadabra");
        show("she sells sea shells by the sea shore");
        show("aaaa");
    }
}
