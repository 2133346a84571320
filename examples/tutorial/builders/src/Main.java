/** What a builder of texts can do. */
public class Main {
    static boolean isPalindrome(String text) {
        StringBuilder letters = new StringBuilder();
        for (char c : text.toLowerCase().toCharArray()) {
            if (Character.isLetter(c)) {
                letters.append(c);
            }
        }
        return letters.toString().equals(letters.reverse().toString());
    }

    static String grouped(long number) {
        StringBuilder text = new StringBuilder().append(number);
        for (int at = text.length() - 3; at > (number < 0 ? 1 : 0); at -= 3) {
            text.insert(at, ',');
        }
        return text.toString();
    }

    public static void main(String[] args) {
        StringBuilder text = new StringBuilder("Hello");
        text.append(',').append(' ').append("World").append(2006).append(true).append((Object) null);
        System.out.println(text + " " + text.length());
        text.setLength(12);
        text.setCharAt(4, '0');
        text.deleteCharAt(5).insert(0, "> ").replace(8, 13, "Java");
        System.out.println(text);
        text.delete(0, 2);
        System.out.println(text.indexOf("Java") + " " + text.charAt(1) + " " + text.reverse());
        System.out.println(isPalindrome("A man, a plan, a canal: Panama") + " " + isPalindrome("no"));
        System.out.println(grouped(1234567) + " " + grouped(-123456) + " " + grouped(12));
        StringBuffer buffer = new StringBuffer();
        for (int i = 0; i < 5; i++) {
            buffer.insert(0, i).append(i);
        }
        System.out.println(buffer);
    }
}
