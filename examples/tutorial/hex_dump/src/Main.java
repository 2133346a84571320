/** Bytes in rows, as numbers and as characters. */
public class Main {
    static void dump(byte[] bytes) {
        for (int row = 0; row < bytes.length; row += 8) {
            StringBuilder hex = new StringBuilder();
            StringBuilder text = new StringBuilder();
            for (int i = row; i < row + 8; i++) {
                if (i < bytes.length) {
                    hex.append(String.format("%02x ", bytes[i]));
                    text.append(bytes[i] >= ' ' && bytes[i] < 127 ? (char) bytes[i] : '.');
                } else {
                    hex.append("   ");
                }
            }
            System.out.printf("%04x  %s|%-8s|%n", row, hex, text);
        }
    }

    public static void main(String[] args) {
        byte[] bytes = new byte[21];
        for (int i = 0; i < bytes.length; i++) {
            bytes[i] = (byte) (i * i * 5 + 40);
        }
        dump(bytes);
    }
}
