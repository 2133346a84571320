/** A stack on an array that grows by a copy of the system's. */
public class Main {
    private int[] values = new int[2];
    private int size;

    void push(int value) {
        if (size == values.length) {
            int[] larger = new int[2 * size];
            System.arraycopy(values, 0, larger, 0, size);
            values = larger;
        }
        values[size++] = value;
    }

    int pop() {
        return values[--size];
    }

    public static void main(String[] args) {
        Main stack = new Main();
        for (int i = 0; i < 10; i++) {
            stack.push(i * i);
        }
        while (stack.size > 0) {
            System.out.print(stack.pop() + " ");
        }
        System.out.println();
    }
}
