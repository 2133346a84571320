import java.util.ArrayList;
import java.util.Arrays;
import java.util.Collection;
import java.util.Comparator;
import java.util.ConcurrentModificationException;
import java.util.Deque;
import java.util.Enumeration;
import java.util.Iterator;
import java.util.LinkedList;
import java.util.List;
import java.util.ListIterator;
import java.util.RandomAccess;
import java.util.Stack;
import java.util.Vector;

/** Each method of ArrayList, LinkedList, Vector and Stack, with ordinary and edge arguments. */
public class Main {
    static void show(String what, Object value) {
        System.out.println(what + " = " + (value == null ? "null" : value.toString()));
    }

    static void show(String what, long value) {
        System.out.println(what + " = " + value);
    }

    static void show(String what, boolean value) {
        System.out.println(what + " = " + value);
    }

    /** A step that may throw. */
    abstract static class Step {
        final String name;

        Step(String name) {
            this.name = name;
        }

        abstract Object run(List<String> list);

        void on(List<String> list) {
            try {
                show(name, run(list));
            } catch (ArrayIndexOutOfBoundsException e) {
                // (the message is the machine's)
                show(name + " throws", "ArrayIndexOutOfBoundsException");
            } catch (RuntimeException e) {
                show(name + " throws", e);
            }
            show("  then", list);
        }
    }

    static List<String> abc(List<String> list) {
        list.add("a");
        list.add("b");
        list.add(null);
        list.add("c");
        list.add("b");
        return list;
    }

    static final int[] INDICES = {-1, 0, 2, 4, 5, 6};

    static void all(String kind, List<String> list) {
        show(kind, list);
        show("empty", list.isEmpty());
        abc(list);
        show("filled", list);
        show("size", list.size());
        show("hash", list.hashCode());
        show("equal to Arrays.asList", list.equals(Arrays.asList("a", "b", null, "c", "b")) && Arrays.asList("a", "b", null, "c", "b").equals(list));
        show("equal to another", list.equals(Arrays.asList("a", "b", null, "c")) || list.equals("a") || !list.equals(list));
        show("contains", list.contains("c") && list.contains(null) && !list.contains("z"));
        show("indices", list.indexOf("b") + 10 * list.lastIndexOf("b") + 100 * list.indexOf(null) + 1000 * list.indexOf("z") + 10000 * list.lastIndexOf("z"));
        for (int i = 0; i < INDICES.length; i++) {
            final int index = INDICES[i];
            new Step("get " + index) {
                Object run(List<String> list) {
                    return list.get(index);
                }
            }.on(list);
            new Step("set " + index) {
                Object run(List<String> list) {
                    return list.set(index, "s" + index);
                }
            }.on(list);
            new Step("add " + index) {
                Object run(List<String> list) {
                    list.add(index, "n" + index);
                    return "added";
                }
            }.on(list);
            new Step("addAll " + index) {
                Object run(List<String> list) {
                    return Boolean.valueOf(list.addAll(index, Arrays.asList("x", "y")));
                }
            }.on(list);
            new Step("remove " + index) {
                Object run(List<String> list) {
                    return list.remove(index);
                }
            }.on(list);
            new Step("listIterator " + index) {
                Object run(List<String> list) {
                    return list.listIterator(index).next();
                }
            }.on(list);
        }
        show("remove c", list.remove("c"));
        show("remove z", list.remove("z"));
        show("remove null", list.remove(null));
        show("then", list);
        show("containsAll", list.containsAll(Arrays.asList("x", "y")) && !list.containsAll(Arrays.asList("x", "z")));
        show("addAll", list.addAll(Arrays.asList("p", "q", "p")));
        show("removeAll", list.removeAll(Arrays.asList("p", "y")));
        show("then", list);
        show("retainAll", list.retainAll(Arrays.asList("x", "q", "b")));
        show("then", list);
        show("retainAll again", list.retainAll(Arrays.asList("x", "q", "b")));
        show("toArray", Arrays.toString(list.toArray()));
        show("toArray with room", Arrays.toString(list.toArray(new String[] {"1", "2", "3", "4", "5", "6", "7", "8", "9", "10", "11", "12"})));
        list.clear();
        show("cleared", list);
        show("addAll nothing", list.addAll(new ArrayList<String>()));
    }

    static void walks(String kind, List<String> list) {
        abc(list);
        ListIterator<String> walk = list.listIterator();
        while (walk.hasNext()) {
            int index = walk.nextIndex();
            String each = walk.next();
            if (index == 1) {
                walk.set("B");
            }
            if (each == null) {
                walk.remove();
                walk.add("new");
                walk.add("newer");
            }
        }
        show(kind + " forth", list);
        StringBuilder back = new StringBuilder();
        while (walk.hasPrevious()) {
            back.append(walk.previousIndex()).append(walk.previous());
            if (walk.nextIndex() == 2) {
                walk.remove();
            }
        }
        show(kind + " back", back);
        show(kind + " then", list);
        try {
            walk.previous();
        } catch (RuntimeException e) {
            show(kind + " previous throws", e);
        }
        try {
            walk.remove();
        } catch (RuntimeException e) {
            show(kind + " remove throws", e);
        }
        Iterator<String> each = list.iterator();
        try {
            each.remove();
        } catch (RuntimeException e) {
            show(kind + " remove throws", e);
        }
        each.next();
        each.remove();
        show(kind + " removed", list);
        list.add("more");
        try {
            each.next();
        } catch (ConcurrentModificationException e) {
            show(kind + " next throws", e);
        }
        try {
            for (String one : list) {
                if (one.equals("B")) {
                    list.remove(one);
                }
            }
        } catch (RuntimeException e) {
            show(kind + " for throws", e);
        }
        each = list.iterator();
        while (each.hasNext()) {
            each.next();
        }
        try {
            each.next();
        } catch (RuntimeException e) {
            show(kind + " end throws", e);
        }
    }

    static void parts(String kind, List<String> list) {
        abc(list);
        List<String> part = list.subList(1, 4);
        show(kind + " part", part);
        show(kind + " by index", list instanceof RandomAccess ? part instanceof RandomAccess : !(part instanceof RandomAccess));
        part.set(0, "P");
        part.add("Q");
        part.add(0, "O");
        part.addAll(Arrays.asList("R", "S"));
        show(kind + " part", part);
        show(kind + " whole", list);
        show(kind + " part of part", part.subList(1, 3));
        part.subList(1, 3).clear();
        show(kind + " whole", list);
        show(kind + " removed", part.remove(0));
        show(kind + " found", part.indexOf("R") + 10 * part.size());
        try {
            part.get(9);
        } catch (RuntimeException e) {
            show(kind + " get throws", e);
        }
        list.add("late");
        try {
            part.size();
        } catch (RuntimeException e) {
            show(kind + " size throws", e);
        }
        int[][] wrong = {{-1, 1}, {0, 99}, {3, 2}};
        for (int i = 0; i < wrong.length; i++) {
            try {
                list.subList(wrong[i][0], wrong[i][1]);
            } catch (RuntimeException e) {
                show(kind + " subList throws", e);
            }
        }
    }

    static final Comparator<String> BY_LENGTH = new Comparator<String>() {
        public int compare(String one, String other) {
            return one.length() - other.length();
        }
    };

    static void sorts(String kind, List<String> list) {
        String[] words = {"pear", "fig", "apple", "kiwi", "date", "plum", "banana", "nut", "lime", "quince", "grape", "melon", "olive", "pea"};
        for (int i = 0; i < words.length; i++) {
            list.add(words[i]);
        }
        list.sort(BY_LENGTH);
        show(kind + " by length", list);
        list.sort(null);
        show(kind + " natural", list);
    }

    static void deques() {
        LinkedList<String> list = new LinkedList<String>(Arrays.asList("m", "n"));
        Deque<String> deque = list;
        deque.addFirst("l");
        deque.addLast("o");
        show("offer", deque.offer("p") && deque.offerFirst("k") && deque.offerLast("q"));
        deque.push("j");
        show("deque", deque);
        show("ends", deque.getFirst() + deque.getLast() + deque.peekFirst() + deque.peekLast() + deque.peek() + deque.element());
        show("taken", deque.pop() + deque.poll() + deque.pollFirst() + deque.pollLast() + deque.remove() + deque.removeFirst() + deque.removeLast());
        show("left", deque);
        Iterator<String> down = deque.descendingIterator();
        deque.remove();
        show("none", deque.poll());
        show("none", deque.pollFirst());
        show("none", deque.pollLast());
        show("none", deque.peek());
        show("none", deque.peekFirst());
        show("none", deque.peekLast());
        for (int i = 0; i < 6; i++) {
            try {
                switch (i) {
                    case 0: deque.getFirst(); break;
                    case 1: deque.getLast(); break;
                    case 2: deque.remove(); break;
                    case 3: deque.removeLast(); break;
                    case 4: deque.pop(); break;
                    default: deque.element();
                }
            } catch (RuntimeException e) {
                show("end " + i, e);
            }
        }
        list.addAll(Arrays.asList("a", "b", "a", "c", "a"));
        show("first", list.removeFirstOccurrence("a") && !list.removeFirstOccurrence("z"));
        show("last", list.removeLastOccurrence("a") && !list.removeLastOccurrence("z"));
        show("left", list);
        for (down = list.descendingIterator(); down.hasNext();) {
            String each = down.next();
            show("down", each);
            if (each.equals("a")) {
                down.remove();
            }
        }
        show("left", list);
        show("clone", list.clone());
    }

    static void oldOnes() {
        Vector<String> vector = new Vector<String>(2, 3);
        show("capacity", vector.capacity());
        vector.addElement("a");
        vector.addElement("b");
        vector.insertElementAt("c", 1);
        show("capacity", vector.capacity());
        show("vector", vector);
        show("ends", vector.firstElement() + vector.lastElement() + vector.elementAt(1));
        vector.setElementAt("d", 0);
        vector.removeElementAt(1);
        show("removed", vector.removeElement("b"));
        vector.setSize(3);
        show("vector", vector);
        vector.trimToSize();
        show("capacity", vector.capacity());
        vector.ensureCapacity(20);
        show("capacity", vector.capacity());
        show("index", vector.indexOf(null, 1) + 10 * vector.lastIndexOf(null, 1));
        for (Enumeration<String> e = vector.elements(); e.hasMoreElements();) {
            show("element", e.nextElement());
        }
        String[] copied = new String[3];
        vector.copyInto(copied);
        show("copied", Arrays.toString(copied));
        vector.removeAllElements();
        show("vector", vector);
        for (int i = 0; i < 5; i++) {
            try {
                switch (i) {
                    case 0: vector.firstElement(); break;
                    case 1: vector.lastElement(); break;
                    case 2: vector.elementAt(2); break;
                    case 3: vector.elements().nextElement(); break;
                    default: vector.insertElementAt("x", 7);
                }
            } catch (RuntimeException e) {
                show("throws", e);
            }
        }
        Stack<Integer> stack = new Stack<Integer>();
        show("empty", stack.empty());
        for (int i = 0; i < 20; i++) {
            stack.push(i * i);
        }
        show("stack", stack);
        show("search", stack.search(361) + 100 * stack.search(0) + stack.search(2));
        int sum = 0;
        while (!stack.empty()) {
            sum = 3 * sum + stack.peek() - stack.pop() + stack.size();
        }
        show("sum", sum);
        try {
            stack.pop();
        } catch (RuntimeException e) {
            show("pop", e);
        }
        try {
            stack.peek();
        } catch (RuntimeException e) {
            show("peek", e);
        }
    }

    static void itself() {
        List<Object> list = new ArrayList<Object>();
        list.add(list);
        list.add(Integer.valueOf(7));
        show("itself", list);
        ArrayList<Integer> numbers = new ArrayList<Integer>(3);
        for (int i = 0; i < 100; i++) {
            numbers.add(i * 37 % 101);
        }
        numbers.trimToSize();
        numbers.ensureCapacity(1000);
        show("numbers", numbers);
        show("clone", numbers.clone().equals(numbers));
        numbers.remove(Integer.valueOf(37));
        numbers.remove(0);
        show("sizes", numbers.size() + 1000 * new ArrayList<Integer>(numbers).size());
        try {
            new ArrayList<String>(-1);
        } catch (RuntimeException e) {
            show("capacity", e);
        }
        Collection<Integer> other = new LinkedList<Integer>(numbers);
        show("equal", other.equals(numbers) && numbers.equals(other) && numbers.hashCode() == other.hashCode());
    }

    public static void main(String[] args) {
        all("ArrayList", new ArrayList<String>());
        all("LinkedList", new LinkedList<String>());
        all("Vector", new Vector<String>());
        all("Stack", new Stack<String>());
        walks("ArrayList", new ArrayList<String>());
        walks("LinkedList", new LinkedList<String>());
        walks("Vector", new Vector<String>());
        parts("ArrayList", new ArrayList<String>());
        parts("LinkedList", new LinkedList<String>());
        parts("Vector", new Vector<String>());
        sorts("ArrayList", new ArrayList<String>());
        sorts("LinkedList", new LinkedList<String>());
        sorts("Vector", new Vector<String>());
        deques();
        oldOnes();
        itself();
    }
}
