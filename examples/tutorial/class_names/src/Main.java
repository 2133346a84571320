/** Objects that say which class they have. */
public class Main {
    static class Tree {
        @Override
        public String toString() {
            return getClass().getSimpleName() + " " + getClass().getName();
        }
    }

    static class Oak extends Tree {
    }

    interface Named {
        String name();
    }

    static String kind(Object object) {
        Class<?> type = object.getClass();
        if (type == String.class) {
            return "a text";
        } else if (type == Integer.class || type == Long.class) {
            return "a number";
        } else if (object instanceof Tree) {
            return "a tree";
        }
        return type.getName();
    }

    public static void main(String[] args) {
        Object[] objects = {"text", 42, 7L, new Tree(), new Oak(), 'c', new int[2], new String[0]};
        for (Object object : objects) {
            System.out.println(kind(object));
        }
        System.out.println(new Tree());
        System.out.println(new Oak());
        Tree tree = new Oak();
        System.out.println((tree.getClass() == Tree.class) + " " + (tree.getClass() == Oak.class));
        System.out.println(tree.getClass().equals(new Oak().getClass()));
        System.out.println(Named.class.getName() + " " + int[].class.getName());
    }
}
