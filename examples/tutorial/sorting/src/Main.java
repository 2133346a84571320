import java.util.Arrays;

/** Ways of sorting, behind one interface. */
public class Main {
    interface Sorter {
        void sort(int[] numbers);
    }

    static class Insertion implements Sorter {
        public void sort(int[] numbers) {
            for (int i = 1; i < numbers.length; i++) {
                int number = numbers[i];
                int j = i;
                for (; j > 0 && numbers[j - 1] > number; j--) {
                    numbers[j] = numbers[j - 1];
                }
                numbers[j] = number;
            }
        }

        public String toString() {
            return "insertion";
        }
    }

    static class Merge implements Sorter {
        public void sort(int[] numbers) {
            if (numbers.length < 2) {
                return;
            }
            int[] left = new int[numbers.length / 2];
            int[] right = new int[numbers.length - left.length];
            System.arraycopy(numbers, 0, left, 0, left.length);
            System.arraycopy(numbers, left.length, right, 0, right.length);
            sort(left);
            sort(right);
            for (int i = 0, j = 0, k = 0; k < numbers.length; k++) {
                numbers[k] = j == right.length || i < left.length && left[i] <= right[j] ? left[i++] : right[j++];
            }
        }

        public String toString() {
            return "merge";
        }
    }

    static class Quick implements Sorter {
        public void sort(int[] numbers) {
            sort(numbers, 0, numbers.length - 1);
        }

        private void sort(int[] numbers, int low, int high) {
            int i = low;
            int j = high;
            int pivot = numbers[(low + high) / 2];
            while (i <= j) {
                while (numbers[i] < pivot) i++;
                while (numbers[j] > pivot) j--;
                if (i <= j) {
                    int swapped = numbers[i];
                    numbers[i++] = numbers[j];
                    numbers[j--] = swapped;
                }
            }
            if (low < j) sort(numbers, low, j);
            if (i < high) sort(numbers, i, high);
        }

        public String toString() {
            return "quick";
        }
    }

    public static void main(String[] args) {
        Sorter[] sorters = {new Insertion(), new Merge(), new Quick()};
        for (Sorter sorter : sorters) {
            int[] numbers = new int[40];
            long seed = 7;
            for (int i = 0; i < numbers.length; i++) {
                seed = (seed * 25214903917L + 11) & 0xffffffffffffL;
                numbers[i] = (int) (seed >>> 40) % 100;
            }
            int[] expected = new int[numbers.length];
            System.arraycopy(numbers, 0, expected, 0, numbers.length);
            Arrays.sort(expected);
            sorter.sort(numbers);
            System.out.println(sorter + ": " + numbers[0] + " to " + numbers[39] + ", " + Arrays.equals(numbers, expected));
        }
    }
}
