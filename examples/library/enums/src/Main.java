import java.util.ArrayList;
import java.util.Arrays;
import java.util.Collection;
import java.util.Collections;
import java.util.EnumMap;
import java.util.EnumSet;
import java.util.HashMap;
import java.util.Iterator;
import java.util.List;
import java.util.Map;
import java.util.NoSuchElementException;
import java.util.Set;

/** Constants of enums, sets and maps of them, and classes: each method with ordinary and edge arguments. */
public class Main {
    enum Day {
        MONDAY, TUESDAY, WEDNESDAY, THURSDAY, FRIDAY, SATURDAY, SUNDAY;

        boolean isFree() {
            return compareTo(FRIDAY) > 0;
        }
    }

    enum Operation {
        PLUS("+") {
            int of(int one, int other) {
                return one + other;
            }
        },
        NONE("0"),
        TIMES("*") {
            int of(int one, int other) {
                return one * other;
            }
        };

        private final String sign;

        Operation(String sign) {
            this.sign = sign;
        }

        int of(int one, int other) {
            return 0;
        }

        public String toString() {
            return sign;
        }
    }

    enum Empty {
    }

    enum Many {
        A, B, C, D, E, F, G, H, I, J, K, L, M, N, O, P, Q, R, S, T
    }

    interface Shape {
    }

    static class Square implements Shape {
        static class Small extends Square {
        }
    }

    private static int line;

    private static void say(Object text) {
        System.out.println(++line + " " + text);
    }

    private static void constants() {
        for (Day day : Day.values()) {
            say(day + " " + day.name() + " " + day.ordinal() + " " + day.isFree() + " " + (day == Day.valueOf(day.name())));
        }
        for (Operation operation : Operation.values()) {
            say(operation + " " + operation.name() + " " + operation.ordinal() + " " + operation.of(6, 7) + " " + operation.getDeclaringClass().getName());
        }
        say(Day.values().length + " " + Empty.values().length + " " + (Day.values() == Day.values()) + " " + Arrays.equals(Day.values(), Day.values()));
        say(Day.MONDAY.compareTo(Day.SUNDAY) + " " + Operation.TIMES.compareTo(Operation.PLUS) + " " + Day.FRIDAY.compareTo(Day.FRIDAY));
        say(Day.MONDAY.equals(Day.MONDAY) + " " + Day.MONDAY.equals(Day.TUESDAY) + " " + Day.MONDAY.equals(null) + " " + (Day.MONDAY.hashCode() == Day.MONDAY.hashCode()));
        say(Enum.valueOf(Day.class, "FRIDAY") + " " + Enum.valueOf(Operation.class, "PLUS") + " " + Day.SUNDAY.getDeclaringClass().getSimpleName());
        Object day = Day.MONDAY;
        say((day instanceof Enum) + " " + (day instanceof Comparable) + " " + (day instanceof java.io.Serializable) + " " + (day instanceof Day));
        List<Day> days = new ArrayList<Day>(Arrays.asList(Day.SUNDAY, Day.MONDAY, Day.FRIDAY));
        Collections.sort(days);
        say(days + " " + Collections.max(days));
    }

    private static String named(Day day) {
        switch (day) {
            case MONDAY:
            case TUESDAY:
                return "early";
            case SUNDAY:
                return "last";
            default:
                return "other";
        }
    }

    private static Object thrown(int which) {
        switch (which) {
            case 0: return Day.valueOf("monday");
            case 1: return Day.valueOf(null);
            case 2: return Enum.valueOf(Day.class, "");
            case 3: return Operation.valueOf("+");
            case 4: return ((Comparable) Day.MONDAY).compareTo(Operation.PLUS);
            case 5: return EnumSet.copyOf(new ArrayList<Day>());
            case 6: return EnumSet.range(Day.FRIDAY, Day.MONDAY);
            case 7: return EnumSet.noneOf(Day.class).add(null);
            case 8: return EnumSet.noneOf(Day.class).iterator().next();
            case 9: EnumSet.of(Day.MONDAY).iterator().remove(); return null;
            case 10: return new EnumMap<Day, String>(new HashMap<Day, String>());
            case 11: return new EnumMap<Day, String>(Day.class).put(null, "x");
            case 12: return new EnumMap<Day, String>(Day.class).entrySet().iterator().next();
            case 13: new EnumMap<Day, String>(Collections.singletonMap(Day.MONDAY, "x")).entrySet().iterator().remove(); return null;
            default: return named(null);
        }
    }

    private static void sets() {
        EnumSet<Day> work = EnumSet.range(Day.MONDAY, Day.FRIDAY);
        EnumSet<Day> free = EnumSet.complementOf(work);
        say(work + " " + free + " " + work.size() + " " + free.size());
        say(EnumSet.allOf(Day.class) + " " + EnumSet.noneOf(Day.class) + " " + EnumSet.noneOf(Empty.class).isEmpty());
        say(EnumSet.of(Day.SUNDAY, Day.MONDAY) + " " + EnumSet.of(Day.FRIDAY) + " " + EnumSet.of(Day.FRIDAY, Day.MONDAY, Day.FRIDAY));
        say(EnumSet.of(Many.T, Many.A, Many.J, Many.I) + " " + EnumSet.of(Many.E, Many.D, Many.C, Many.B, Many.A) + " " + EnumSet.of(Many.E, Many.D, Many.C, Many.B, Many.A, Many.T, Many.K));
        say(EnumSet.copyOf(work).equals(work) + " " + EnumSet.copyOf((Collection<Day>) Arrays.asList(Day.SUNDAY, Day.MONDAY)) + " " + work.clone().equals(work));
        say(work.contains(Day.MONDAY) + " " + work.contains(Day.SUNDAY) + " " + work.contains(null) + " " + work.contains("MONDAY") + " " + ((Collection<?>) work).contains(Operation.PLUS));
        say(free.add(Day.MONDAY) + " " + free.add(Day.MONDAY) + " " + free.remove(Day.SUNDAY) + " " + free.remove(Day.SUNDAY) + " " + free.remove(null) + " " + free);
        say(free.addAll(work) + " " + free.containsAll(work) + " " + free.removeAll(EnumSet.of(Day.MONDAY, Day.SUNDAY)) + " " + free.retainAll(work) + " " + free);
        Iterator<Day> each = free.iterator();
        while (each.hasNext()) {
            if (each.next().ordinal() % 2 == 0) {
                each.remove();
            }
        }
        say(free + " " + free.hashCode() * 0 + " " + (free.hashCode() == free.clone().hashCode()));
        free.clear();
        say(free + " " + free.isEmpty() + " " + free.equals(EnumSet.noneOf(Many.class)) + " " + free.toArray().length);
        say(EnumSet.allOf(Operation.class) + " " + EnumSet.complementOf(EnumSet.of(Operation.TIMES)) + " " + EnumSet.range(Operation.NONE, Operation.TIMES));
        say(Arrays.asList(work.toArray(new Day[5])));
    }

    private static void maps() {
        EnumMap<Many, Integer> places = new EnumMap<Many, Integer>(Many.class);
        say(places.put(Many.T, 20) + " " + places.put(Many.A, 1) + " " + places.put(Many.A, 2) + " " + places.put(Many.I, null) + " " + places);
        say(places.get(Many.A) + " " + places.get(Many.B) + " " + places.get(Many.I) + " " + places.get(null) + " " + places.get("A") + " " + places.get(Day.MONDAY));
        say(places.containsKey(Many.I) + " " + places.containsKey(Many.J) + " " + places.containsValue(20) + " " + places.containsValue(null) + " " + places.containsValue(3));
        say(places.size() + " " + places.keySet() + " " + places.values() + " " + places.entrySet());
        say(places.remove(Many.I) + " " + places.remove(Many.I) + " " + places.remove(Many.T) + " " + places.remove(null) + " " + places);
        EnumMap<Many, Integer> copy = places.clone();
        copy.put(Many.C, 3);
        say(copy + " " + places + " " + copy.equals(places) + " " + new EnumMap<Many, Integer>(copy).equals(copy) + " " + copy.equals(new HashMap<Many, Integer>(copy)));
        places.putAll(Collections.singletonMap(Many.M, 13));
        places.putAll(copy);
        say(places + " " + new EnumMap<Many, Integer>((Map<Many, Integer>) new HashMap<Many, Integer>(places)));
        for (Iterator<Map.Entry<Many, Integer>> each = places.entrySet().iterator(); each.hasNext();) {
            Map.Entry<Many, Integer> entry = each.next();
            if (entry.getKey() == Many.C) {
                each.remove();
            } else {
                say(entry + " " + entry.setValue(entry.getValue() + 100) + " " + entry.getValue());
            }
        }
        say(places.keySet().remove(Many.A) + " " + places.values().remove(113) + " " + places + " " + places.isEmpty());
        copy.clear();
        say(copy + " " + copy.size() + " " + copy.isEmpty());
    }

    private static void classes() {
        Object[] objects = {Day.MONDAY, Operation.NONE, Operation.PLUS, "text", new Square(), new Square.Small(), new int[0], new Day[2][3], new long[1][1], new String[0], new RuntimeException()};
        for (Object each : objects) {
            say(each.getClass().getName() + " " + each.getClass().getSimpleName() + " " + each.getClass().isArray() + " " + each.getClass());
        }
        Set<String> names = new java.util.TreeSet<String>();
        for (Class<?> each : new Class<?>[] {Shape.class, Square.class, Main.class, Day[].class, String.class, Class.class}) {
            names.add(each.getName() + "/" + each.getSimpleName());
        }
        say(names);
        say((new Square().getClass() == Square.class) + " " + ((Class<?>) new Square.Small().getClass() == Square.class) + " " + Square.class.equals(Square.class) + " " + Square.class.equals("Square"));
        say(Day.MONDAY.getClass() == Day.class ? "its own" : "a body");
        say(Operation.PLUS.getClass() == Operation.class ? "its own" : "a body");
    }

    public static void main(String[] args) {
        constants();
        for (Day day : Day.values()) {
            say(named(day));
        }
        Operation.values();
        Many.values();
        Empty.values();
        for (int which = 0; which <= 14; which++) {
            try {
                say(thrown(which));
            } catch (NullPointerException e) {
                say("null");
            } catch (ClassCastException e) {
                say("another class");
            } catch (RuntimeException e) {
                say(e);
            }
        }
        sets();
        maps();
        classes();
    }
}
