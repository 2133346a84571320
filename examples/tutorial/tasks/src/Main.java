import java.util.Comparator;
import java.util.PriorityQueue;

/** Tasks by their urgency, and by their age where that is equal. */
public class Main {
    static class Task {
        final String name;
        final int urgency;
        final int number;

        Task(String name, int urgency, int number) {
            this.name = name;
            this.urgency = urgency;
            this.number = number;
        }
    }

    public static void main(String[] args) {
        PriorityQueue<Task> tasks = new PriorityQueue<Task>(4, new Comparator<Task>() {
            public int compare(Task one, Task other) {
                return one.urgency != other.urgency ? other.urgency - one.urgency : one.number - other.number;
            }
        });
        String[] names = {"mail", "fire", "tea", "bug", "nap", "call"};
        int[] urgencies = {3, 9, 1, 7, 1, 7};
        for (int i = 0; i < names.length; i++) {
            tasks.add(new Task(names[i], urgencies[i], i));
        }
        while (!tasks.isEmpty()) {
            Task next = tasks.poll();
            System.out.println(next.urgency + " " + next.name);
        }
    }
}
