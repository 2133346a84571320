import java.util.ArrayList;
import java.util.Iterator;
import java.util.List;
import java.util.NoSuchElementException;
import java.util.Random;
import java.util.Stack;

/** A generic search tree of one's own, whose iterator goes through it in order by a stack. */
public class Main {
    static class Tree<T extends Comparable<T>> implements Iterable<T> {
        private static class Node<T> {
            final T value;
            Node<T> left;
            Node<T> right;

            Node(T value) {
                this.value = value;
            }
        }

        private Node<T> root;
        private int size;

        boolean add(T value) {
            if (root == null) {
                root = new Node<T>(value);
                size++;
                return true;
            }
            Node<T> node = root;
            while (true) {
                int order = value.compareTo(node.value);
                if (order == 0) {
                    return false;
                }
                Node<T> next = order < 0 ? node.left : node.right;
                if (next == null) {
                    break;
                }
                node = next;
            }
            if (value.compareTo(node.value) < 0) {
                node.left = new Node<T>(value);
            } else {
                node.right = new Node<T>(value);
            }
            size++;
            return true;
        }

        int height() {
            return height(root);
        }

        private int height(Node<T> node) {
            return node == null ? 0 : 1 + Math.max(height(node.left), height(node.right));
        }

        public Iterator<T> iterator() {
            return new InOrder();
        }

        private class InOrder implements Iterator<T> {
            private final Stack<Node<T>> waiting = new Stack<Node<T>>();

            InOrder() {
                push(root);
            }

            private void push(Node<T> node) {
                for (Node<T> each = node; each != null; each = each.left) {
                    waiting.push(each);
                }
            }

            public boolean hasNext() {
                return !waiting.isEmpty();
            }

            public T next() {
                if (!hasNext()) {
                    throw new NoSuchElementException();
                }
                Node<T> node = waiting.pop();
                push(node.right);
                return node.value;
            }

            public void remove() {
                throw new UnsupportedOperationException();
            }
        }
    }

    public static void main(String[] args) {
        Tree<Integer> tree = new Tree<Integer>();
        Random random = new Random(11);
        int again = 0;
        for (int i = 0; i < 400; i++) {
            if (!tree.add(random.nextInt(1000))) {
                again++;
            }
        }
        List<Integer> first = new ArrayList<Integer>();
        int before = -1;
        int wrong = 0;
        for (int value : tree) {
            if (value <= before) {
                wrong++;
            }
            before = value;
            if (first.size() < 8) {
                first.add(value);
            }
        }
        System.out.println(tree.size + " values, " + again + " came again, height " + tree.height() + ", " + wrong + " in a wrong place");
        System.out.println("first " + first.toString() + ", last " + before);
        Tree<Character> letters = new Tree<Character>();
        for (char letter : new char[] {'t', 'r', 'e', 'e', 's'}) {
            letters.add(letter);
        }
        for (char letter : letters) {
            System.out.print(letter);
        }
        System.out.println();
    }
}
