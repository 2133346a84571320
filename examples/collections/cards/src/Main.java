import java.util.ArrayList;
import java.util.Collections;
import java.util.List;
import java.util.Map;
import java.util.Random;
import java.util.TreeMap;

/** A deck of cards: shuffled with a seed, dealt, sorted and judged. */
public class Main {
    static class Card implements Comparable<Card> {
        private static final String RANKS = "23456789TJQKA";
        private static final String SUITS = "cdhs";
        final int rank;
        final int suit;

        Card(int rank, int suit) {
            this.rank = rank;
            this.suit = suit;
        }

        public int compareTo(Card other) {
            return rank != other.rank ? rank - other.rank : suit - other.suit;
        }

        @Override
        public String toString() {
            return String.valueOf(RANKS.charAt(rank)) + SUITS.charAt(suit);
        }
    }

    static List<Card> deck() {
        List<Card> deck = new ArrayList<Card>();
        for (int suit = 0; suit < Card.SUITS.length(); suit++) {
            for (int rank = 0; rank < Card.RANKS.length(); rank++) {
                deck.add(new Card(rank, suit));
            }
        }
        return deck;
    }

    /** Takes cards from the end of a deck. */
    static List<Card> deal(List<Card> deck, int count) {
        List<Card> end = deck.subList(deck.size() - count, deck.size());
        List<Card> hand = new ArrayList<Card>(end);
        end.clear();
        Collections.sort(hand);
        return hand;
    }

    static String judge(List<Card> hand) {
        Map<Integer, Integer> ranks = new TreeMap<Integer, Integer>();
        Map<Integer, Integer> suits = new TreeMap<Integer, Integer>();
        for (Card card : hand) {
            ranks.put(card.rank, ranks.containsKey(card.rank) ? ranks.get(card.rank) + 1 : 1);
            suits.put(card.suit, suits.containsKey(card.suit) ? suits.get(card.suit) + 1 : 1);
        }
        List<Integer> counts = new ArrayList<Integer>(ranks.values());
        Collections.sort(counts, Collections.<Integer>reverseOrder());
        boolean isRow = counts.get(0) == 1 && hand.get(4).rank - hand.get(0).rank == 4;
        if (suits.size() == 1) {
            return isRow ? "straight flush" : "flush";
        }
        switch (counts.get(0)) {
            case 4:
                return "four of a kind";
            case 3:
                return counts.get(1) == 2 ? "full house" : "three of a kind";
            case 2:
                return counts.get(1) == 2 ? "two pairs" : "a pair";
            default:
                return isRow ? "straight" : "high card";
        }
    }

    public static void main(String[] args) {
        Random random = new Random(52);
        List<Card> deck = deck();
        Collections.shuffle(deck, random);
        for (int player = 1; player <= 4; player++) {
            List<Card> hand = deal(deck, 5);
            System.out.println("player " + player + ": " + hand.toString() + " " + judge(hand));
        }
        System.out.println(deck.size() + " cards are left, " + Collections.max(deck).toString() + " the highest");
        Map<String, Integer> kinds = new TreeMap<String, Integer>();
        for (int i = 0; i < 300; i++) {
            List<Card> again = deck();
            Collections.shuffle(again, random);
            String kind = judge(deal(again, 5));
            Integer count = kinds.get(kind);
            kinds.put(kind, count == null ? 1 : count + 1);
        }
        System.out.println(kinds.toString());
    }
}
