/** Names of an enum, also those that aren't. */
public class Main {
    enum Colour {
        RED, GREEN, BLUE;

        static Colour parse(String text) {
            return valueOf(text.trim().toUpperCase());
        }
    }

    public static void main(String[] args) {
        String[] texts = {"red", " Blue ", "purple", "GREEN"};
        int[] counts = new int[Colour.values().length];
        for (String text : texts) {
            try {
                Colour colour = Colour.parse(text);
                counts[colour.ordinal()]++;
                System.out.println(colour + " is number " + colour.ordinal());
            } catch (IllegalArgumentException e) {
                System.out.println(e.getMessage());
            }
        }
        for (Colour colour : Colour.values()) {
            System.out.println(colour.name() + " " + counts[colour.ordinal()]);
        }
    }
}
