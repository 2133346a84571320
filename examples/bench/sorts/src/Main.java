/** Sorting: arrays of ints and of objects by quicksort, mergesort and heapsort. */
public class Main {
    interface Sorter {
        void sort(int[] numbers);
    }

    static final class Quick implements Sorter {
        public void sort(int[] numbers) {
            sort(numbers, 0, numbers.length - 1);
        }

        private void sort(int[] numbers, int from, int to) {
            if (to - from < 12) {
                insert(numbers, from, to);
                return;
            }
            int middle = numbers[from + to >>> 1];
            int low = from;
            int high = to;
            while (low <= high) {
                while (numbers[low] < middle) {
                    low++;
                }
                while (numbers[high] > middle) {
                    high--;
                }
                if (low <= high) {
                    int held = numbers[low];
                    numbers[low] = numbers[high];
                    numbers[high] = held;
                    low++;
                    high--;
                }
            }
            sort(numbers, from, high);
            sort(numbers, low, to);
        }

        private void insert(int[] numbers, int from, int to) {
            for (int i = from + 1; i <= to; i++) {
                int held = numbers[i];
                int place = i;
                while (place > from && numbers[place - 1] > held) {
                    numbers[place] = numbers[place - 1];
                    place--;
                }
                numbers[place] = held;
            }
        }
    }

    static final class Merge implements Sorter {
        public void sort(int[] numbers) {
            sort(numbers, new int[numbers.length], 0, numbers.length);
        }

        private void sort(int[] numbers, int[] room, int from, int to) {
            if (to - from < 2) {
                return;
            }
            int middle = (from + to) / 2;
            sort(numbers, room, from, middle);
            sort(numbers, room, middle, to);
            for (int i = from; i < to; i++) {
                room[i] = numbers[i];
            }
            int left = from;
            int right = middle;
            for (int i = from; i < to; i++) {
                boolean isLeft = right == to || left < middle && room[left] <= room[right];
                numbers[i] = isLeft ? room[left++] : room[right++];
            }
        }
    }

    static final class Heap implements Sorter {
        public void sort(int[] numbers) {
            for (int i = numbers.length / 2 - 1; i >= 0; i--) {
                sink(numbers, i, numbers.length);
            }
            for (int end = numbers.length - 1; end > 0; end--) {
                int held = numbers[0];
                numbers[0] = numbers[end];
                numbers[end] = held;
                sink(numbers, 0, end);
            }
        }

        private void sink(int[] numbers, int from, int end) {
            int place = from;
            int held = numbers[from];
            while (2 * place + 1 < end) {
                int child = 2 * place + 1;
                if (child + 1 < end && numbers[child + 1] > numbers[child]) {
                    child++;
                }
                if (numbers[child] <= held) {
                    break;
                }
                numbers[place] = numbers[child];
                place = child;
            }
            numbers[place] = held;
        }
    }

    interface Ordered {
        boolean isBelow(Ordered other);
    }

    static final class Card implements Ordered {
        private final int suit;
        private final int rank;

        Card(int suit, int rank) {
            this.suit = suit;
            this.rank = rank;
        }

        int suit() {
            return suit;
        }

        int rank() {
            return rank;
        }

        public boolean isBelow(Ordered other) {
            Card card = (Card) other;
            return rank() != card.rank() ? rank() < card.rank() : suit() < card.suit();
        }
    }

    private static void sort(Ordered[] values, Ordered[] room, int from, int to) {
        if (to - from < 2) {
            return;
        }
        int middle = (from + to) / 2;
        sort(values, room, from, middle);
        sort(values, room, middle, to);
        for (int i = from; i < to; i++) {
            room[i] = values[i];
        }
        int left = from;
        int right = middle;
        for (int i = from; i < to; i++) {
            boolean isRight = left == middle || right < to && room[right].isBelow(room[left]);
            values[i] = isRight ? room[right++] : room[left++];
        }
    }

    private int seed = 5;

    private int random() {
        seed ^= seed << 13;
        seed ^= seed >>> 17;
        seed ^= seed << 5;
        return seed;
    }

    private int[] numbers(int count) {
        int[] numbers = new int[count];
        for (int i = 0; i < count; i++) {
            numbers[i] = random() >> 8;
        }
        return numbers;
    }

    private Card[] cards(int count) {
        Card[] cards = new Card[count];
        for (int i = 0; i < count; i++) {
            cards[i] = new Card(random() & 3, (random() >>> 1) % 5000);
        }
        return cards;
    }

    private static int mixed(int[] numbers) {
        int mixed = 0;
        for (int i = 0; i < numbers.length; i++) {
            if (i > 0 && numbers[i - 1] > numbers[i]) {
                throw new IllegalStateException("not sorted");
            }
            mixed = mixed * 31 + numbers[i];
        }
        return mixed;
    }

    private static int mixed(Card[] cards) {
        int mixed = 0;
        for (int i = 0; i < cards.length; i++) {
            if (i > 0 && cards[i].isBelow(cards[i - 1])) {
                throw new IllegalStateException("not sorted");
            }
            mixed = mixed * 31 + cards[i].rank() * 4 + cards[i].suit();
        }
        return mixed;
    }

    public static void main(String[] arguments) {
        Main main = new Main();
        Sorter[] sorters = {new Quick(), new Merge(), new Heap()};
        int mixed = 0;
        for (int round = 0; round < 20; round++) {
            for (int i = 0; i < sorters.length; i++) {
                int[] numbers = main.numbers(5000);
                sorters[i].sort(numbers);
                mixed = mixed * 17 + mixed(numbers);
            }
            Card[] cards = main.cards(5000);
            sort(cards, new Ordered[cards.length], 0, cards.length);
            mixed = mixed * 17 + mixed(cards);
        }
        System.out.println(mixed);
    }
}
