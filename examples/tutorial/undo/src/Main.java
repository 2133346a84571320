import java.util.ArrayDeque;
import java.util.Deque;

/** An editor of a line whose steps can be undone and done again. */
public class Main {
    private String text = "";
    private final Deque<String> done = new ArrayDeque<String>();
    private final Deque<String> undone = new ArrayDeque<String>();

    void type(String more) {
        done.push(text);
        undone.clear();
        text = text + more;
    }

    void undo() {
        if (!done.isEmpty()) {
            undone.push(text);
            text = done.pop();
        }
    }

    void redo() {
        if (!undone.isEmpty()) {
            done.push(text);
            text = undone.pop();
        }
    }

    void show(String step) {
        System.out.println(step + ": \"" + text + "\"");
    }

    public static void main(String[] args) {
        Main editor = new Main();
        editor.type("Hello");
        editor.type(", world");
        editor.show("typed");
        editor.undo();
        editor.show("undone");
        editor.redo();
        editor.show("redone");
        editor.undo();
        editor.undo();
        editor.undo();
        editor.show("all undone");
        editor.redo();
        editor.type("!");
        editor.redo();
        editor.show("typed");
    }
}
