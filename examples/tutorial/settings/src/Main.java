import java.util.LinkedHashMap;
import java.util.Map;

/** Parses settings that are written as name=value. */
public class Main {
    static Map<String, String> parse(String text) {
        Map<String, String> settings = new LinkedHashMap<String, String>();
        for (String part : text.split(";")) {
            int at = part.indexOf('=');
            if (at < 0) {
                settings.put(part.trim(), "true");
            } else {
                settings.put(part.substring(0, at).trim(), part.substring(at + 1).trim());
            }
        }
        return settings;
    }

    public static void main(String[] args) {
        Map<String, String> settings = parse("width = 80; height=24;wrap ; title = a=b; width=100");
        System.out.println(settings);
        int area = Integer.parseInt(settings.get("width")) * Integer.valueOf(settings.get("height"));
        System.out.println("area " + area + ", wrap " + Boolean.parseBoolean(settings.get("wrap")));
        System.out.println(settings.containsKey("title") + " " + settings.get("colour"));
        String title = settings.get("title");
        System.out.println(title.startsWith("a=") && title.endsWith("b") && title.contains("=") ? title.replace('=', '-') : "?");
    }
}
