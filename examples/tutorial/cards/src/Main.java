import java.util.ArrayList;
import java.util.Collections;
import java.util.Comparator;
import java.util.List;
import java.util.Random;

/** Cards of two enums, shuffled and sorted. */
public class Main {
    enum Suit { CLUBS, DIAMONDS, HEARTS, SPADES }

    enum Rank {
        SEVEN(7), EIGHT(8), NINE(9), TEN(10), JACK(2), QUEEN(3), KING(4), ACE(11);

        final int points;

        Rank(int points) {
            this.points = points;
        }
    }

    static class Card implements Comparable<Card> {
        final Suit suit;
        final Rank rank;

        Card(Suit suit, Rank rank) {
            this.suit = suit;
            this.rank = rank;
        }

        public int compareTo(Card other) {
            int bySuit = suit.compareTo(other.suit);
            return bySuit != 0 ? bySuit : rank.compareTo(other.rank);
        }

        @Override
        public String toString() {
            return rank + " of " + suit;
        }
    }

    public static void main(String[] args) {
        List<Card> deck = new ArrayList<Card>();
        for (Suit suit : Suit.values()) {
            for (Rank rank : Rank.values()) {
                deck.add(new Card(suit, rank));
            }
        }
        Collections.shuffle(deck, new Random(32));
        List<Card> hand = new ArrayList<Card>(deck.subList(0, 5));
        Collections.sort(hand);
        System.out.println(hand);
        int points = 0;
        for (Card card : deck) {
            points += card.rank.points;
        }
        System.out.println(deck.size() + " cards, " + points + " points");
        Collections.sort(hand, new Comparator<Card>() {
            public int compare(Card one, Card other) {
                return other.rank.points - one.rank.points;
            }
        });
        System.out.println("best: " + hand.get(0).rank.points);
    }
}
