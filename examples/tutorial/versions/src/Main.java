import java.util.Arrays;
import java.util.Set;
import java.util.TreeSet;

/** Versions that are compared part by part. */
public class Main implements Comparable<Main> {
    private final int[] parts;

    Main(String text) {
        String[] texts = text.split("\\.");
        parts = new int[texts.length];
        for (int i = 0; i < texts.length; i++) {
            parts[i] = Integer.parseInt(texts[i]);
        }
    }

    public int compareTo(Main other) {
        for (int i = 0; i < Math.min(parts.length, other.parts.length); i++) {
            if (parts[i] != other.parts[i]) {
                return parts[i] < other.parts[i] ? -1 : 1;
            }
        }
        return parts.length - other.parts.length;
    }

    @Override
    public boolean equals(Object other) {
        return other instanceof Main && compareTo((Main) other) == 0;
    }

    @Override
    public int hashCode() {
        return Arrays.hashCode(parts);
    }

    @Override
    public String toString() {
        String text = "";
        for (int part : parts) {
            text += (text.equals("") ? "" : ".") + part;
        }
        return text;
    }

    public static void main(String[] args) {
        Set<Main> versions = new TreeSet<Main>();
        for (String text : new String[] {"1.10", "1.9.2", "1.2", "2", "1.9", "1.10.0", "1.2"}) {
            versions.add(new Main(text));
        }
        System.out.println(versions);
        System.out.println(new Main("1.02").equals(new Main("1.2")) + " " + new Main("3").equals("3"));
    }
}
