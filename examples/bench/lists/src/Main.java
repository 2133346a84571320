/** Objects: lists are built, turned round, walked through and dropped. */
public class Main {
    static final class Node {
        final int value;
        Node next;

        Node(int value, Node next) {
            this.value = value;
            this.next = next;
        }
    }

    static Node turned(Node list) {
        Node turned = null;
        while (list != null) {
            Node next = list.next;
            list.next = turned;
            turned = list;
            list = next;
        }
        return turned;
    }

    static int sum(Node list) {
        int sum = 0;
        for (Node node = list; node != null; node = node.next) {
            sum = sum * 3 + node.value;
        }
        return sum;
    }

    public static void main(String[] arguments) {
        int all = 0;
        for (int round = 0; round < 600; round++) {
            Node list = null;
            for (int i = 0; i < 1000; i++) {
                list = new Node(i ^ round, list);
            }
            for (int turn = 0; turn < 20; turn++) {
                list = turned(list);
                all += sum(list);
            }
        }
        System.out.println(all);
    }
}
