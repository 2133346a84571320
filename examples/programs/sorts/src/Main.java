/** Six ways to sort, over comparators by anonymous classes, with counted comparisons and a stable one told from others. */
public class Main {
    interface Order<T> { int compare(T a, T b); }
    static abstract class Sorter {
        long compared;
        private final String name;
        Sorter(String name) { this.name = name; }
        abstract <T> void sort(T[] items, Order<? super T> by);
        protected <T> boolean less(T a, T b, Order<? super T> by) {
            compared++;
            return by.compare(a, b) < 0;
        }
        protected static void swap(Object[] a, int i, int k) { Object t = a[i]; a[i] = a[k]; a[k] = t; }
        public String toString() { return name; }
    }
    static class Insertion extends Sorter {
        Insertion() { super("insertion"); }
        <T> void sort(T[] a, Order<? super T> by) {
            for (int i = 1; i < a.length; i++)
                for (int k = i; k > 0 && less(a[k], a[k - 1], by); k--) swap(a, k, k - 1);
        }
    }
    static class Heap extends Sorter {
        Heap() { super("heap"); }
        <T> void sort(T[] a, Order<? super T> by) {
            for (int i = a.length / 2 - 1; i >= 0; i--) sink(a, i, a.length, by);
            for (int end = a.length - 1; end > 0; end--) {
                swap(a, 0, end);
                sink(a, 0, end, by);
            }
        }
        private <T> void sink(T[] a, int i, int end, Order<? super T> by) {
            for (int child; (child = 2 * i + 1) < end; i = child) {
                if (child + 1 < end && less(a[child], a[child + 1], by)) child++;
                if (!less(a[i], a[child], by)) return;
                swap(a, i, child);
            }
        }
    }
    static class Quick extends Sorter {
        private int seed = 12345;
        Quick() { super("quick"); }
        <T> void sort(T[] a, Order<? super T> by) { sort(a, 0, a.length - 1, by); }
        private <T> void sort(T[] a, int low, int high, Order<? super T> by) {
            if (low >= high) return;
            seed = seed * 1103515245 + 12345;
            T pivot = a[low + (seed >>> 16) % (high - low + 1)];
            int i = low, k = high;
            while (i <= k) {
                while (less(a[i], pivot, by)) i++;
                while (less(pivot, a[k], by)) k--;
                if (i <= k) swap(a, i++, k--);
            }
            sort(a, low, k, by);
            sort(a, i, high, by);
        }
    }
    static class Merge extends Sorter {
        Merge() { super("merge"); }
        <T> void sort(T[] a, Order<? super T> by) { sort(a, new Object[a.length], 0, a.length, by); }
        @SuppressWarnings("unchecked")
        private <T> void sort(T[] a, Object[] room, int low, int high, Order<? super T> by) {
            if (high - low < 2) return;
            int mid = (low + high) >>> 1;
            sort(a, room, low, mid, by);
            sort(a, room, mid, high, by);
            for (int i = low; i < high; i++) room[i] = a[i];
            int i = low, k = mid;
            for (int to = low; to < high; to++) {
                boolean right = i >= mid || k < high && less((T) room[k], (T) room[i], by);
                a[to] = (T) (right ? room[k++] : room[i++]);
            }
        }
    }
    static class Shell extends Insertion {
        <T> void sort(T[] a, Order<? super T> by) {
            for (int gap = a.length / 2; gap > 0; gap = gap == 2 ? 1 : gap * 5 / 11)
                for (int i = gap; i < a.length; i++)
                    for (int k = i; k >= gap && less(a[k], a[k - gap], by); k -= gap) swap(a, k, k - gap);
        }
        public String toString() { return "shell over " + super.toString(); }
    }
    static class Card {
        final char suit; final byte rank; final short order;
        Card(int n) { suit = "CDHS".charAt(n & 3); rank = (byte) (n * 37 % 13 + 1); order = (short) n; }
        public String toString() { return "" + suit + (int) rank; }
    }
    public static void main(String[] args) {
        Order<Card> byRank = new Order<Card>() { public int compare(Card a, Card b) { return a.rank - b.rank; } };
        final Order<Card> bySuit = new Order<Card>() { public int compare(Card a, Card b) { return a.suit - b.suit; } };
        Order<Object> byText = new Order<Object>() { public int compare(Object a, Object b) { return a.toString().compareTo(b.toString()); } };
        Sorter[] sorters = { new Insertion(), new Heap(), new Quick(), new Merge(), new Shell() };
        for (Sorter s : sorters) {
            Card[] deck = new Card[52];
            for (int i = 0; i < deck.length; i++) deck[i] = new Card(i * 29 % 52);
            s.sort(deck, byRank);
            s.sort(deck, bySuit);
            boolean stable = true;
            for (int i = 1; i < deck.length; i++)
                if (deck[i - 1].suit == deck[i].suit && deck[i - 1].rank > deck[i].rank) stable = false;
            long before = s.compared;
            s.sort(deck, byText);
            String[] texts = new String[9];
            for (int i = 0; i < texts.length; i++) texts[i] = deck[i * 5].toString();
            s.sort(texts, byText);
            StringBuilder line = new StringBuilder();
            for (String t : texts) line.append(t).append(' ');
            System.out.println(s.toString() + ": " + (stable ? "stable" : "not stable") + ", " + before + " then " + s.compared + ": " + line.toString());
        }
        try {
            Object[] mixed = new String[] { "b", "a" };
            mixed[0] = "c";
            new Heap().sort(mixed, byText);
            System.out.println(mixed[0].toString() + mixed[1].toString());
            mixed[1] = new Card(3);
        } catch (ArrayStoreException wrong) {
            System.out.println("array store");
        }
    }
}
