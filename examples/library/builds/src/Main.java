/** What class files of the library add to builders, where they change what is built: each method with ordinary and edge arguments. */
public class Main {
    private static int line;

    private static StringBuilder abc() {
        return new StringBuilder("abc");
    }

    private static StringBuffer xyz() {
        return new StringBuffer("xyz");
    }

    private static void say(Object text) {
        System.out.println(++line + " " + text);
    }

    /** The units by their numbers. */
    private static String numbers(Object text) {
        StringBuilder all = new StringBuilder();
        String units = text.toString();
        for (int i = 0; i < units.length(); i++) {
            all.append((int) units.charAt(i)).append(' ');
        }
        return all.toString();
    }

    private static Object changed(int which) {
        char[] chars = {'p', 'q', 'r'};
        char[] no_chars = null;
        String no_text = null;
        CharSequence no_sequence = null;
        StringBuilder text = abc();
        StringBuffer buffer = xyz();
        switch (which) {
            case 0: text.setCharAt(0, 'X'); text.setCharAt(2, 'Z'); return text;
            case 1: text.setCharAt(3, 'x'); return text;
            case 2: text.setCharAt(-1, 'x'); return text;
            case 3: return text.deleteCharAt(1).deleteCharAt(1).deleteCharAt(0);
            case 4: return text.deleteCharAt(3);
            case 5: return text.deleteCharAt(-1);
            case 6: return text.delete(1, 2).append('.').delete(1, 99);
            case 7: return text.delete(-1, 2);
            case 8: return text.delete(2, 1);
            case 9: return text.delete(3, 9).delete(0, 0);
            case 10: return text.delete(4, 9);
            case 11: return text.insert(0, "<").insert(4, ">").insert(2, "");
            case 12: return text.insert(4, "x");
            case 13: return text.insert(-1, "x");
            case 14: return text.insert(3, no_text);
            case 15: return text.replace(1, 2, "long").replace(0, 99, "all");
            case 16: return text.replace(4, 5, "x");
            case 17: return text.replace(2, 1, "x");
            case 18: return text.replace(-1, 1, "x");
            case 19: return text.replace(1, 2, no_text);
            case 20: return text.insert(1, 'c').insert(1, -5).insert(1, 5000000000L).insert(1, true).insert(1, (Object) abc());
            case 21: return text.insert(4, 'c');
            case 22: return text.insert(1, chars).insert(0, chars, 1, 2).insert(3, chars, 3, 0);
            case 23: return text.insert(4, chars);
            case 24: return text.insert(1, chars, 1, 5);
            case 25: return text.insert(1, chars, -1, 1);
            case 26: return text.insert(1, no_chars);
            case 27: return text.insert(1, "xyz", 1, 2).insert(0, xyz()).insert(2, no_sequence);
            case 28: return text.insert(5, "xyz", 1, 2);
            case 29: return text.insert(1, "xyz", 1, 5);
            case 30: return text.reverse().append(new StringBuilder().reverse()).append(new StringBuilder("q").reverse());
            case 31: return numbers(new StringBuilder("a\ud83d\ude00b\ude00\ud83d").reverse());
            case 32: return numbers(new StringBuilder("\ude00\ud83d\ud83d\ude00\ude00").reverse());
            case 33: buffer.setCharAt(1, 'Y'); return buffer.reverse().insert(0, 1).insert(4, "e").deleteCharAt(1).delete(0, 1);
            case 34: return buffer.replace(1, 2, "yy").insert(1, chars).insert(0, (CharSequence) abc()).insert(1, false).insert(1, 'i').insert(1, 7L);
            case 35: buffer.setCharAt(3, 'x'); return buffer;
            case 36: return buffer.insert(4, "x");
            case 37: return buffer.delete(2, 1);
            case 38: text.setLength(2); text.append('d').setLength(5); return numbers(text);
            case 39: return text.charAt(1) + "" + buffer.charAt(2);
            case 40: buffer.setLength(1); return buffer.append(text.length()).append(buffer.length());
            case 41: text.getChars(1, 3, chars, 1); buffer.getChars(0, 1, chars, 0); buffer.getChars(3, 3, chars, 3); return String.valueOf(chars);
            case 42: text.getChars(1, 4, chars, 0); return text;
            case 43: text.getChars(2, 1, chars, 0); return text;
            case 44: text.getChars(0, 3, chars, 1); return text;
            case 45: buffer.getChars(0, 1, chars, -1); return buffer;
            case 46: buffer.getChars(0, 1, no_chars, 0); return buffer;
            case 47: text.append(text); return text.lastIndexOf("bc", 3) + " " + text.lastIndexOf("bc", 4) + " " + text.lastIndexOf("bc", 0) + " " + text.lastIndexOf("", 9);
            case 48: return buffer.append(buffer).lastIndexOf("x", -1) + " " + buffer.lastIndexOf("x", 2) + " " + buffer.lastIndexOf("zz", 9);
            case 49: text.trimToSize(); buffer.trimToSize(); return text.append(buffer);
            case 50: return text.append("xyz", 1, 3).append("xyz", 3, 3).append(no_sequence, 0, 2).append(chars, 1, 2).append(chars, 3, 0);
            case 51: return text.append("xyz", 2, 1);
            case 52: return text.append(no_sequence, 3, 5);
            case 53: return text.append(chars, 2, 2);
            case 54: return buffer.append("xyz", -1, 2);
            case 55: return buffer.append(chars, -1, 2);
            case 56: return buffer.append("xyz", 0, 1).append(chars, 0, 3).append(no_chars, 0, 0);
            default: return text.append(buffer).append(chars, 0, 2);
        }
    }

    public static void main(String[] args) {
        for (int which = 0; which <= 57; which++) {
            try {
                say(changed(which));
            } catch (NullPointerException e) {
                say("null");
            } catch (IndexOutOfBoundsException e) {
                say((e instanceof StringIndexOutOfBoundsException) + " " + e.getMessage());
            }
        }
    }
}
