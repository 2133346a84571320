/** An exception that has another one as its cause. */
public class Main {
    static class ConfigException extends Exception {
        ConfigException(String message, Throwable cause) {
            super(message, cause);
        }
    }

    static int parse(String text) throws ConfigException {
        try {
            return Integer.parseInt(text);
        } catch (NumberFormatException e) {
            throw new ConfigException("bad size: " + text, e);
        }
    }

    public static void main(String[] args) {
        try {
            System.out.println(parse("12"));
            System.out.println(parse("big"));
        } catch (ConfigException e) {
            System.out.println(e.getMessage() + ", since " + e.getCause().getMessage());
        }
    }
}
