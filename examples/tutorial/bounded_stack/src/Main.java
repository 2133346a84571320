/** A stack that asserts what has to hold. */
public class Main {
    private final int[] items;
    private int size;

    Main(int capacity) {
        items = new int[capacity];
    }

    void push(int item) {
        assert size < items.length : "full at " + size;
        items[size++] = item;
        assert top() == item;
    }

    int pop() {
        assert size > 0;
        int item = items[--size];
        assert size >= 0 && size < items.length : size;
        return item;
    }

    int top() {
        return items[size - 1];
    }

    public static void main(String[] args) {
        Main stack = new Main(4);
        for (int i = 1; i <= 4; i++) {
            stack.push(i * i);
        }
        int sum = 0;
        while (stack.size > 0) {
            sum = sum * 10 + stack.pop() % 10;
        }
        System.out.println(sum);
    }
}
