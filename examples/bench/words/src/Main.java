/** Texts: lines are cut into words, words and pairs of neighbours are counted in a hash table, and the words are sorted. */
public class Main {
    /** Two words that stand beside one another. */
    static final class Pair {
        private final String first;
        private final String second;

        Pair(String first, String second) {
            this.first = first;
            this.second = second;
        }

        public boolean equals(Object other) {
            if (!(other instanceof Pair)) {
                return false;
            }
            Pair pair = (Pair) other;
            return first.equals(pair.first) && second.equals(pair.second);
        }

        public int hashCode() {
            return first.hashCode() * 31 + second.hashCode();
        }

        public String toString() {
            return first + "-" + second;
        }
    }

    /** How often a key was met. */
    static final class Entry {
        final Object key;
        final int hash;
        int count;
        Entry next;

        Entry(Object key, int hash, Entry next) {
            this.key = key;
            this.hash = hash;
            this.next = next;
        }
    }

    /** A hash table of counts, with chains. */
    static final class Counts {
        private Entry[] chains = new Entry[16];
        private int size;

        int size() {
            return size;
        }

        void add(Object key) {
            int hash = key.hashCode();
            hash ^= hash >>> 16;
            Entry entry = chains[hash & chains.length - 1];
            while (entry != null && (entry.hash != hash || !entry.key.equals(key))) {
                entry = entry.next;
            }
            if (entry == null) {
                entry = added(key, hash);
            }
            entry.count++;
        }

        private Entry added(Object key, int hash) {
            if (size == chains.length) {
                grow();
            }
            int place = hash & chains.length - 1;
            Entry entry = new Entry(key, hash, chains[place]);
            chains[place] = entry;
            size++;
            return entry;
        }

        private void grow() {
            Entry[] old = chains;
            chains = new Entry[old.length * 2];
            for (int i = 0; i < old.length; i++) {
                Entry entry = old[i];
                while (entry != null) {
                    Entry next = entry.next;
                    int place = entry.hash & chains.length - 1;
                    entry.next = chains[place];
                    chains[place] = entry;
                    entry = next;
                }
            }
        }

        Entry[] entries() {
            Entry[] entries = new Entry[size];
            int filled = 0;
            for (int i = 0; i < chains.length; i++) {
                for (Entry entry = chains[i]; entry != null; entry = entry.next) {
                    entries[filled++] = entry;
                }
            }
            return entries;
        }
    }

    private static final String[] STARTS = {"b", "br", "d", "f", "fl", "g", "k", "l", "m", "n", "pr", "s", "st", "t", "v", "w"};
    private static final String[] ENDS = {"a", "an", "e", "er", "i", "in", "o", "or", "u", "um"};

    private int seed = 1;

    private int random(int below) {
        seed = seed * 1103515245 + 12345;
        return (seed >>> 8) % below;
    }

    private String line(int words) {
        StringBuffer line = new StringBuffer();
        for (int i = 0; i < words; i++) {
            if (i > 0) {
                line.append(random(9) == 0 ? ", " : " ");
            }
            int syllables = 1 + random(1 + random(3));
            for (int j = 0; j < syllables; j++) {
                line.append(STARTS[random(1 + random(STARTS.length))]).append(ENDS[random(ENDS.length)]);
            }
        }
        return line.append('.').toString();
    }

    private static boolean isLetter(char character) {
        return character >= 'a' && character <= 'z' || character >= 'A' && character <= 'Z';
    }

    private static void count(String line, Counts words, Counts pairs) {
        String before = null;
        StringBuffer word = new StringBuffer();
        for (int i = 0; i < line.length(); i++) {
            char character = line.charAt(i);
            if (isLetter(character)) {
                word.append(character);
            } else if (word.length() > 0) {
                String found = word.toString();
                words.add(found);
                if (before != null) {
                    pairs.add(new Pair(before, found));
                }
                before = found;
                word = new StringBuffer();
            }
        }
    }

    private static int order(Entry left, Entry right) {
        if (left.count != right.count) {
            return right.count - left.count;
        }
        return ((String) left.key).compareTo((String) right.key);
    }

    private static void sort(Entry[] entries, int from, int to) {
        while (from < to) {
            Entry middle = entries[(from + to) / 2];
            int low = from;
            int high = to;
            while (low <= high) {
                while (order(entries[low], middle) < 0) {
                    low++;
                }
                while (order(entries[high], middle) > 0) {
                    high--;
                }
                if (low <= high) {
                    Entry held = entries[low];
                    entries[low++] = entries[high];
                    entries[high--] = held;
                }
            }
            sort(entries, from, high);
            from = low;
        }
    }

    public static void main(String[] arguments) {
        Main texts = new Main();
        Counts words = new Counts();
        Counts pairs = new Counts();
        for (int i = 0; i < 5000; i++) {
            count(texts.line(12), words, pairs);
        }
        Entry[] sorted = words.entries();
        sort(sorted, 0, sorted.length - 1);
        for (int i = 0; i < 10; i++) {
            System.out.println(sorted[i].key.toString() + " " + sorted[i].count);
        }
        Entry most = null;
        Entry[] neighbours = pairs.entries();
        for (int i = 0; i < neighbours.length; i++) {
            Entry entry = neighbours[i];
            if (most == null || entry.count > most.count
                    || entry.count == most.count && entry.key.toString().compareTo(most.key.toString()) < 0) {
                most = entry;
            }
        }
        System.out.println(most.key.toString() + " " + most.count);
        System.out.println(words.size() + " words, " + pairs.size() + " pairs");
    }
}
