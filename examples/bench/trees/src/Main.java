/** Trees: a search tree by an order that is handed in, with nodes that are added, found, taken out and folded. */
public class Main {
    interface Order<T> {
        int compare(T left, T right);
    }

    interface Fold<T> {
        long next(long sum, T value);
    }

    static final class Town {
        final String name;
        final int people;

        Town(String name, int people) {
            this.name = name;
            this.people = people;
        }
    }

    static final class ByName implements Order<Town> {
        public int compare(Town left, Town right) {
            return left.name.compareTo(right.name);
        }
    }

    static final class ByPeople implements Order<Town> {
        private final Order<Town> others = new ByName();

        public int compare(Town left, Town right) {
            if (left.people != right.people) {
                return left.people < right.people ? -1 : 1;
            }
            return others.compare(left, right);
        }
    }

    static final class People implements Fold<Town> {
        public long next(long sum, Town town) {
            return sum * 7 + town.people;
        }
    }

    /** A search tree in which a node's level is drawn by lot, so that it stays low (a treap). */
    static final class Tree<T> {
        private static final class Node<T> {
            final T value;
            final int level;
            Node<T> left;
            Node<T> right;

            Node(T value, int level) {
                this.value = value;
                this.level = level;
            }
        }

        private final Order<T> order;
        private Node<T> root;
        private int size;
        private int seed = 7;

        Tree(Order<T> order) {
            this.order = order;
        }

        int size() {
            return size;
        }

        boolean has(T value) {
            Node<T> node = root;
            while (node != null) {
                int side = order.compare(value, node.value);
                if (side == 0) {
                    return true;
                }
                node = side < 0 ? node.left : node.right;
            }
            return false;
        }

        void add(T value) {
            root = added(root, value);
        }

        private Node<T> added(Node<T> node, T value) {
            if (node == null) {
                size++;
                seed = seed * 69069 + 1;
                return new Node<T>(value, seed >>> 8);
            }
            int side = order.compare(value, node.value);
            if (side < 0) {
                node.left = added(node.left, value);
                return node.left.level > node.level ? turnedRight(node) : node;
            }
            if (side > 0) {
                node.right = added(node.right, value);
                return node.right.level > node.level ? turnedLeft(node) : node;
            }
            return node;
        }

        private Node<T> turnedRight(Node<T> node) {
            Node<T> top = node.left;
            node.left = top.right;
            top.right = node;
            return top;
        }

        private Node<T> turnedLeft(Node<T> node) {
            Node<T> top = node.right;
            node.right = top.left;
            top.left = node;
            return top;
        }

        void remove(T value) {
            root = without(root, value);
        }

        private Node<T> without(Node<T> node, T value) {
            if (node == null) {
                return null;
            }
            int side = order.compare(value, node.value);
            if (side < 0) {
                node.left = without(node.left, value);
                return node;
            }
            if (side > 0) {
                node.right = without(node.right, value);
                return node;
            }
            size--;
            return joined(node.left, node.right);
        }

        private Node<T> joined(Node<T> left, Node<T> right) {
            if (left == null) {
                return right;
            }
            if (right == null) {
                return left;
            }
            if (left.level > right.level) {
                left.right = joined(left.right, right);
                return left;
            }
            right.left = joined(left, right.left);
            return right;
        }

        int height() {
            return height(root);
        }

        private int height(Node<T> node) {
            if (node == null) {
                return 0;
            }
            int left = height(node.left);
            int right = height(node.right);
            return 1 + (left > right ? left : right);
        }

        long fold(long sum, Fold<T> fold) {
            return fold(root, sum, fold);
        }

        private long fold(Node<T> node, long sum, Fold<T> fold) {
            if (node == null) {
                return sum;
            }
            return fold(node.right, fold.next(fold(node.left, sum, fold), node.value), fold);
        }
    }

    private static Town[] towns(int count) {
        Town[] towns = new Town[count];
        int seed = 42;
        for (int i = 0; i < count; i++) {
            seed = seed * 1103515245 + 12345;
            int people = (seed >>> 10) % 3000;
            towns[i] = new Town("town" + (seed >>> 16) % 700 + "by" + i % 10, people);
        }
        return towns;
    }

    public static void main(String[] arguments) {
        Town[] towns = towns(4000);
        Tree<Town> byName = new Tree<Town>(new ByName());
        Tree<Town> byPeople = new Tree<Town>(new ByPeople());
        Fold<Town> people = new People();
        long sum = 0;
        int found = 0;
        for (int round = 0; round < 8; round++) {
            for (int i = 0; i < towns.length; i++) {
                byName.add(towns[i]);
                byPeople.add(towns[i]);
            }
            for (int i = round; i < towns.length; i += 3) {
                byName.remove(towns[i]);
                byPeople.remove(towns[towns.length - 1 - i]);
            }
            for (int i = 0; i < towns.length; i++) {
                if (byName.has(towns[i]) != byPeople.has(towns[i])) {
                    found++;
                }
            }
            sum = byName.fold(byPeople.fold(sum, people), people) + byName.height() * byPeople.height();
        }
        System.out.println(byName.size() + " " + byPeople.size() + " " + found + " " + sum);
    }
}
