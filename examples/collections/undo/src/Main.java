import java.util.ArrayList;
import java.util.List;
import java.util.Stack;

/** A line editor whose changes can be undone and done again: commands on two stacks. */
public class Main {
    interface Command {
        void run(List<String> lines);

        void undo(List<String> lines);
    }

    static class Insert implements Command {
        private final int place;
        private final String text;

        Insert(int place, String text) {
            this.place = place;
            this.text = text;
        }

        public void run(List<String> lines) {
            lines.add(place, text);
        }

        public void undo(List<String> lines) {
            lines.remove(place);
        }
    }

    static class Delete implements Command {
        private final int place;
        private String text;

        Delete(int place) {
            this.place = place;
        }

        public void run(List<String> lines) {
            text = lines.remove(place);
        }

        public void undo(List<String> lines) {
            lines.add(place, text);
        }
    }

    private final List<String> lines = new ArrayList<String>();
    private final Stack<Command> done = new Stack<Command>();
    private final Stack<Command> undone = new Stack<Command>();

    void run(Command command) {
        try {
            command.run(lines);
            done.push(command);
            undone.clear();
        } catch (IndexOutOfBoundsException e) {
            System.out.println("there is no such line");
        }
    }

    boolean undo() {
        if (done.isEmpty()) {
            return false;
        }
        Command command = done.pop();
        command.undo(lines);
        undone.push(command);
        return true;
    }

    boolean redo() {
        if (undone.isEmpty()) {
            return false;
        }
        Command command = undone.pop();
        command.run(lines);
        done.push(command);
        return true;
    }

    void print(String title) {
        System.out.println(title + ": " + lines.toString() + " " + done.size() + " done, " + undone.size() + " undone");
    }

    public static void main(String[] args) {
        Main editor = new Main();
        editor.run(new Insert(0, "one"));
        editor.run(new Insert(1, "three"));
        editor.run(new Insert(1, "two"));
        editor.print("written");
        editor.run(new Delete(0));
        editor.print("deleted");
        editor.run(new Delete(5));
        System.out.println(editor.undo() + " " + editor.undo());
        editor.print("undone");
        System.out.println(editor.redo());
        editor.print("redone");
        editor.run(new Insert(0, "zero"));
        System.out.println(editor.redo());
        editor.print("new");
        while (editor.undo()) {
            editor.print("back");
        }
    }
}
