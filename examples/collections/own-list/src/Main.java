import java.util.ConcurrentModificationException;
import java.util.Iterator;
import java.util.NoSuchElementException;

/** A generic linked list of one's own: added to at both ends, reversed, and gone through with removals. */
public class Main {
    static class Chain<E> implements Iterable<E> {
        private class Link {
            E value;
            Link next;

            Link(E value, Link next) {
                this.value = value;
                this.next = next;
            }
        }

        private Link first;
        private Link last;
        private int size;
        private int changes;

        Chain<E> addFirst(E value) {
            first = new Link(value, first);
            if (last == null) {
                last = first;
            }
            size++;
            changes++;
            return this;
        }

        Chain<E> addLast(E value) {
            if (first == null) {
                return addFirst(value);
            }
            last.next = new Link(value, null);
            last = last.next;
            size++;
            changes++;
            return this;
        }

        void reverse() {
            Link done = null;
            last = first;
            while (first != null) {
                Link next = first.next;
                first.next = done;
                done = first;
                first = next;
            }
            first = done;
            changes++;
        }

        public Iterator<E> iterator() {
            return new Iterator<E>() {
                private Link next = first;
                private Link before;
                private Link twoBefore;
                private int seen = changes;

                public boolean hasNext() {
                    return next != null;
                }

                public E next() {
                    if (seen != changes) {
                        throw new ConcurrentModificationException();
                    }
                    if (next == null) {
                        throw new NoSuchElementException();
                    }
                    if (before != null) {
                        twoBefore = before;
                    }
                    before = next;
                    next = next.next;
                    return before.value;
                }

                public void remove() {
                    if (before == null) {
                        throw new IllegalStateException();
                    }
                    if (twoBefore == null) {
                        first = next;
                    } else {
                        twoBefore.next = next;
                    }
                    if (next == null) {
                        last = twoBefore;
                    }
                    before = null;
                    size--;
                    seen = ++changes;
                }
            };
        }

        @Override
        public String toString() {
            StringBuilder text = new StringBuilder().append('<');
            String separator = "";
            for (E value : this) {
                text.append(separator).append(value.toString());
                separator = " ";
            }
            return text.append('>').toString();
        }
    }

    public static void main(String[] args) {
        Chain<Integer> chain = new Chain<Integer>();
        System.out.println(chain.toString() + " " + chain.size);
        for (int i = 1; i <= 6; i++) {
            chain.addLast(i).addFirst(-i);
        }
        System.out.println(chain.toString() + " " + chain.size);
        chain.reverse();
        System.out.println(chain.toString());
        for (Iterator<Integer> each = chain.iterator(); each.hasNext();) {
            if (each.next() % 2 == 0) {
                each.remove();
            }
        }
        System.out.println(chain.toString() + " " + chain.size);
        chain.addLast(0);
        System.out.println(chain.toString());
        try {
            for (int value : chain) {
                chain.addLast(value);
            }
        } catch (ConcurrentModificationException e) {
            System.out.println("changed on the way: " + chain.toString());
        }
        try {
            chain.iterator().remove();
        } catch (IllegalStateException e) {
            System.out.println("nothing to remove");
        }
    }
}
