import java.util.EmptyStackException;

/** A stack of any type, and methods with bounds. */
public class Main<E> {
    private Object[] items = new Object[2];
    private int size;

    void push(E item) {
        if (size == items.length) {
            Object[] larger = new Object[2 * size];
            System.arraycopy(items, 0, larger, 0, size);
            items = larger;
        }
        items[size++] = item;
    }

    @SuppressWarnings("unchecked")
    E pop() {
        if (size == 0) {
            throw new EmptyStackException();
        }
        E item = (E) items[--size];
        items[size] = null;
        return item;
    }

    boolean isEmpty() {
        return size == 0;
    }

    static <T extends Comparable<T>> T largest(Main<T> stack) {
        T best = stack.pop();
        while (!stack.isEmpty()) {
            T next = stack.pop();
            if (next.compareTo(best) > 0) {
                best = next;
            }
        }
        return best;
    }

    static <A, B extends A> void move(Main<B> from, Main<A> to) {
        while (!from.isEmpty()) {
            to.push(from.pop());
        }
    }

    public static void main(String[] args) {
        Main<String> words = new Main<String>();
        for (String word : "pear fig apple quince plum".split(" ")) {
            words.push(word);
        }
        System.out.println(words.pop() + " " + largest(words));
        Main<Integer> numbers = new Main<Integer>();
        for (int i = 0; i < 9; i++) {
            numbers.push(i * 7 % 9);
        }
        Main<Object> objects = new Main<Object>();
        Main.<Object, Integer>move(numbers, objects);
        objects.push("top");
        System.out.println(objects.pop() + " " + objects.pop() + " " + objects.size);
        try {
            numbers.pop();
        } catch (EmptyStackException e) {
            System.out.println("empty");
        }
    }
}
