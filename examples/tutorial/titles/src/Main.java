/** Methods of texts. */
public class Main {
    static String title(String text) {
        String result = "";
        for (String word : text.trim().split(" ")) {
            if (word.length() > 0) {
                result += (result.length() > 0 ? " " : "") + word.substring(0, 1).toUpperCase() + word.substring(1).toLowerCase();
            }
        }
        return result;
    }

    static int count(String text, String part) {
        int count = 0;
        for (int at = text.indexOf(part); at >= 0; at = text.indexOf(part, at + part.length())) {
            count++;
        }
        return count;
    }

    public static void main(String[] args) {
        System.out.println(title("  the QUICK  brown fOX "));
        String line = "she sells sea shells by the sea shore";
        System.out.println(count(line, "she") + " " + count(line, "sea") + " " + count(line, "ell"));
        System.out.println(line.indexOf('y') + " " + line.lastIndexOf("sea") + " " + line.indexOf("cat"));
        System.out.println(line.replace('s', 'z').replace("zh", "th"));
        System.out.println("apple".compareTo("banana") + " " + "apple".compareToIgnoreCase("APPLE") + " " + "b".equalsIgnoreCase("B"));
        System.out.println("a,b,,c,,".split(",").length + " " + "file.tar.gz".split("\\.")[1]);
        System.out.println("  x ".trim() + "|" + "abc".concat("def") + "|" + "abcdef".substring(2, 4) + "|" + "".length());
        String one = "java";
        String two = new StringBuilder("ja").append("va").toString();
        System.out.println((one == two) + " " + one.equals(two) + " " + (one.hashCode() == two.hashCode()));
        System.out.println("tutorial".contains("tori") + " " + "tutorial".startsWith("tu") + " " + "tutorial".endsWith("al"));
    }
}
