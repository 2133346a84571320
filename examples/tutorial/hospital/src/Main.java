import java.util.Comparator;
import java.util.LinkedList;
import java.util.PriorityQueue;
import java.util.Queue;

/** Queues: in the order of arrival, and by priority. */
public class Main {
    static class Patient {
        private static int arrivals;

        final String name;
        final int urgency;
        final int arrival = ++arrivals;

        Patient(String name, int urgency) {
            this.name = name;
            this.urgency = urgency;
        }

        public String toString() {
            return name + "/" + urgency;
        }
    }

    public static void main(String[] args) {
        Queue<Patient> waiting = new LinkedList<Patient>();
        Queue<Patient> urgent = new PriorityQueue<Patient>(5, new Comparator<Patient>() {
            public int compare(Patient one, Patient other) {
                if (one.urgency != other.urgency) {
                    return other.urgency - one.urgency;
                }
                return one.arrival - other.arrival;
            }
        });
        String[] names = {"Kim", "Lee", "Max", "Noa", "Oli"};
        int[] urgencies = {2, 5, 2, 9, 5};
        for (int i = 0; i < names.length; i++) {
            waiting.offer(new Patient(names[i], urgencies[i]));
        }
        System.out.println(waiting + " first " + waiting.peek());
        while (!waiting.isEmpty()) {
            urgent.add(waiting.remove());
            if (urgent.size() == 3) {
                System.out.println("treats " + urgent.poll());
            }
        }
        while (urgent.peek() != null) {
            System.out.println("treats " + urgent.remove());
        }
        System.out.println(urgent.poll() + " " + waiting.poll());
    }
}
