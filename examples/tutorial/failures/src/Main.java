/** Exceptions that keep their causes. */
public class Main {
    static class ConfigException extends Exception {
        ConfigException(String message, Throwable cause) {
            super(message, cause);
        }
    }

    static int read(String text) {
        return Integer.parseInt(text);
    }

    static int port(String text) throws ConfigException {
        try {
            int port = read(text);
            if (port < 0) {
                throw new IllegalStateException("negative: " + port);
            }
            return port;
        } catch (RuntimeException e) {
            throw new ConfigException("no port: " + text, e);
        }
    }

    public static void main(String[] args) {
        for (String text : new String[] {"8080", "x80", "-1"}) {
            try {
                System.out.println("port " + port(text));
            } catch (ConfigException e) {
                for (Throwable each = e; each != null; each = each.getCause()) {
                    System.out.println(each);
                }
            }
        }
        Exception late = new Exception("late");
        late.initCause(new Error("early"));
        System.out.println(late.getCause().getMessage() + " " + new RuntimeException(late).getMessage());
    }
}
