import java.util.ArrayDeque;
import java.util.ArrayList;
import java.util.Collections;
import java.util.Deque;
import java.util.Iterator;
import java.util.LinkedList;
import java.util.List;
import java.util.ListIterator;
import java.util.PriorityQueue;
import java.util.Random;
import java.util.Vector;

/** Many random steps on lists, deques and a priority queue; what each step gives goes into a sum that is printed now and then. */
public class Main {
    private final Random random;
    private long sum;

    Main(long seed) {
        random = new Random(seed);
    }

    void note(int value) {
        sum = sum * 31 + value;
    }

    void note(Object value) {
        note(value == null ? 17 : value.hashCode());
    }

    void note(boolean value) {
        note(value ? 1 : 2);
    }

    Integer box() {
        return random.nextInt(8) == 0 ? null : Integer.valueOf(random.nextInt(300) - 150);
    }

    void step(List<Integer> list) {
        int size = list.size();
        int index = random.nextInt(size + 2) - (random.nextInt(10) == 0 ? 1 : 0);
        try {
            switch (random.nextInt(16)) {
                case 0:
                case 1:
                case 2:
                    note(list.add(box()));
                    break;
                case 3:
                    list.add(index, box());
                    break;
                case 4:
                    note(list.remove(index));
                    break;
                case 5:
                    note(list.remove((Object) box()));
                    break;
                case 6:
                    note(list.set(index, box()));
                    break;
                case 7:
                    note(list.get(index));
                    break;
                case 8:
                    Integer wanted = box();
                    note(list.indexOf(wanted));
                    note(list.lastIndexOf(wanted));
                    note(list.contains(wanted));
                    break;
                case 9:
                    walk(list.listIterator(index));
                    break;
                case 10:
                    List<Integer> part = list.subList(index, Math.min(size, index + random.nextInt(5)));
                    note(part);
                    part.add(box());
                    Collections.reverse(part);
                    note(part.size());
                    break;
                case 11:
                    List<Integer> more = new ArrayList<Integer>();
                    more.add(box());
                    more.add(box());
                    note(list.addAll(index, more));
                    break;
                case 12:
                    List<Integer> few = new LinkedList<Integer>();
                    few.add(box());
                    few.add(box());
                    note(random.nextInt(40) == 0 ? list.retainAll(few) : list.removeAll(few));
                    break;
                case 13:
                    Collections.rotate(list, random.nextInt(11) - 5);
                    break;
                case 14:
                    Collections.shuffle(list, random);
                    break;
                default:
                    list.subList(index, Math.min(size, index + 3)).clear();
            }
        } catch (IndexOutOfBoundsException e) {
            note(-3);
        } catch (IllegalArgumentException e) {
            note(-4);
        }
    }

    void walk(ListIterator<Integer> each) {
        for (int i = 0; i < 6; i++) {
            try {
                switch (random.nextInt(6)) {
                    case 0:
                        note(each.hasPrevious() ? each.previous() : each.next());
                        break;
                    case 1:
                        each.remove();
                        break;
                    case 2:
                        each.set(box());
                        break;
                    case 3:
                        each.add(box());
                        break;
                    default:
                        note(each.hasNext() ? each.next() : (Integer) each.nextIndex());
                }
            } catch (IllegalStateException e) {
                note(-5);
            } catch (RuntimeException e) {
                note(-6);
            }
        }
        note(each.nextIndex() - each.previousIndex());
    }

    void step(Deque<Integer> deque) {
        Integer value = random.nextInt(300);
        try {
            switch (random.nextInt(14)) {
                case 0:
                    deque.addFirst(value);
                    break;
                case 1:
                    deque.addLast(value);
                    break;
                case 2:
                    note(deque.offerFirst(value));
                    break;
                case 3:
                    note(deque.offer(value));
                    break;
                case 4:
                    note(deque.pollFirst());
                    break;
                case 5:
                    note(deque.pollLast());
                    break;
                case 6:
                    note(deque.removeFirst());
                    break;
                case 7:
                    note(deque.removeLast());
                    break;
                case 8:
                    deque.push(value);
                    note(deque.getFirst());
                    break;
                case 9:
                    note(deque.removeFirstOccurrence(value));
                    note(deque.removeLastOccurrence(value / 2));
                    break;
                case 10:
                    int place = 0;
                    for (Iterator<Integer> each = deque.iterator(); each.hasNext();) {
                        note(each.next());
                        if (++place % 7 == 3) {
                            each.remove();
                        }
                    }
                    break;
                case 11:
                    for (Iterator<Integer> each = deque.descendingIterator(); each.hasNext();) {
                        note(each.next());
                        if (random.nextInt(9) == 0) {
                            each.remove();
                        }
                    }
                    break;
                case 12:
                    note(deque.peekFirst());
                    note(deque.peekLast());
                    break;
                default:
                    note(deque.contains(value));
                    note(deque.getLast());
            }
        } catch (RuntimeException e) {
            note(-7);
        }
    }

    void step(PriorityQueue<Integer> queue) {
        Integer value = random.nextInt(60);
        switch (random.nextInt(6)) {
            case 0:
            case 1:
            case 2:
                note(queue.add(value));
                break;
            case 3:
                note(queue.poll());
                break;
            case 4:
                note(queue.remove((Object) value));
                break;
            default:
                for (Iterator<Integer> each = queue.iterator(); each.hasNext();) {
                    note(each.next());
                    if (random.nextInt(12) == 0) {
                        each.remove();
                    }
                }
        }
    }

    static void lists(int seed) {
        List<List<Integer>> lists = new ArrayList<List<Integer>>();
        lists.add(new ArrayList<Integer>(1));
        lists.add(new LinkedList<Integer>());
        lists.add(new Vector<Integer>(1));
        List<Integer> whole = new ArrayList<Integer>();
        whole.add(1000);
        whole.add(2000);
        lists.add(whole.subList(1, 1));
        for (List<Integer> list : lists) {
            Main main = new Main(seed);
            for (int i = 0; i < 400; i++) {
                main.step(list);
                main.note(list.size());
                if (i % 100 == 99) {
                    main.note(list);
                    System.out.println(seed + "/" + i + ": " + main.sum + " " + list.toString());
                }
            }
        }
        System.out.println("whole " + whole.toString());
    }

    static void queues(int seed) {
        List<Deque<Integer>> deques = new ArrayList<Deque<Integer>>();
        deques.add(new ArrayDeque<Integer>(seed));
        deques.add(new LinkedList<Integer>());
        for (Deque<Integer> deque : deques) {
            Main main = new Main(seed);
            for (int i = 0; i < 400; i++) {
                main.step(deque);
                main.note(deque.size());
                if (i % 100 == 99) {
                    System.out.println(seed + "/" + i + ": " + main.sum + " " + deque.toString());
                }
            }
        }
        PriorityQueue<Integer> queue = new PriorityQueue<Integer>(seed);
        Main main = new Main(seed);
        for (int i = 0; i < 400; i++) {
            main.step(queue);
            main.note(queue.size());
            if (i % 100 == 99) {
                System.out.println(seed + "/" + i + ": " + main.sum + " " + queue.toString());
            }
        }
    }

    public static void main(String[] args) {
        for (int seed = 1; seed <= 4; seed++) {
            lists(seed);
            queues(seed);
        }
    }
}
