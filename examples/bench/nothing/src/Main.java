/** Does nothing: what starting a machine takes. */
public class Main {
    public static void main(String[] arguments) {
    }
}
