/** Texts that read the same from both ends, whatever the case and the signs between letters. */
public class Main {
    static boolean isPalindrome(String text) {
        int left = 0;
        int right = text.length() - 1;
        while (left < right) {
            if (!Character.isLetterOrDigit(text.charAt(left))) {
                left++;
            } else if (!Character.isLetterOrDigit(text.charAt(right))) {
                right--;
            } else if (Character.toLowerCase(text.charAt(left++)) != Character.toLowerCase(text.charAt(right--))) {
                return false;
            }
        }
        return true;
    }

    public static void main(String[] args) {
        String[] texts = {"A man, a plan, a canal: Panama!", "hello", "", "12321", "Never odd or even"};
        for (String text : texts) {
            System.out.println(text + " - " + isPalindrome(text));
        }
    }
}
