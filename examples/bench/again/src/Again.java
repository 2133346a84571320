/** Runs a program as often as there are arguments, so that the start of a virtual machine doesn't count. */
public class Again {
    public static void main(String[] arguments) {
        for (int i = 0; i < arguments.length; i++) {
            Main.main(arguments);
        }
    }
}
