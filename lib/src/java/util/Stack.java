package java.util;

/**
 * A stack: a Vector whose last element is on top.
 *
 * <p>What stays is what stays of a Vector.
 */
public class Stack<E> extends Vector<E> {
    /** Makes an empty stack, in constant time. */
    public Stack() {
    }

    /** Puts an element on top and returns it, in constant time but where the array grows. */
    public E push(E element) {
        addElement(element);
        return element;
    }

    /** Takes the element on top, or throws EmptyStackException, in constant time. */
    public E pop() {
        E top = peek();
        removeElementAt(size() - 1);
        return top;
    }

    /** Returns the element on top, or throws EmptyStackException, in constant time. */
    public E peek() {
        if (size() == 0) {
            throw new EmptyStackException();
        }
        return elementAt(size() - 1);
    }

    /** Reports whether there is no element, in constant time. */
    public boolean empty() {
        return size() == 0;
    }

    /** Returns how far below the top an equal element is, from 1 on, or -1, in linear time. */
    public int search(Object element) {
        int index = lastIndexOf(element);
        return index < 0 ? -1 : size() - index;
    }
}
