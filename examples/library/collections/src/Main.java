import java.util.ArrayList;
import java.util.Arrays;
import java.util.Collection;
import java.util.Collections;
import java.util.Comparator;
import java.util.Enumeration;
import java.util.HashMap;
import java.util.HashSet;
import java.util.Iterator;
import java.util.LinkedList;
import java.util.List;
import java.util.ListIterator;
import java.util.Map;
import java.util.Random;
import java.util.RandomAccess;
import java.util.Set;

/** Each method of Collections, with ordinary and edge arguments. */
public class Main {
    static void show(String what, Object value) {
        System.out.println(what + " = " + (value == null ? "null" : value.toString()));
    }

    static void show(String what, long value) {
        System.out.println(what + " = " + value);
    }

    static void show(String what, boolean value) {
        System.out.println(what + " = " + value);
    }

    static List<Integer> numbers(List<Integer> list) {
        for (int i = 0; i < 12; i++) {
            list.add(i * 7 % 12);
        }
        return list;
    }

    static void lists(List<Integer> list) {
        numbers(list);
        Collections.sort(list);
        show("sorted", list);
        show("search", Collections.binarySearch(list, 5) + 100 * Collections.binarySearch(list, 99));
        Collections.reverse(list);
        show("reversed", list);
        show("search", Collections.binarySearch(list, 5, Collections.<Integer>reverseOrder()));
        Collections.shuffle(list, new Random(3));
        show("shuffled", list);
        Collections.swap(list, 0, 11);
        show("swapped", list);
        int[] distances = {0, 1, -1, 5, -13, 24};
        for (int i = 0; i < distances.length; i++) {
            Collections.rotate(list, distances[i]);
            show("rotated " + distances[i], list);
        }
        show("best", Collections.min(list) + 100 * Collections.max(list));
        Comparator<Integer> byRest = new Comparator<Integer>() {
            public int compare(Integer one, Integer other) {
                return one % 5 - other % 5;
            }
        };
        show("best", Collections.min(list, byRest) + 100 * Collections.max(list, byRest));
        Collections.sort(list, byRest);
        show("by rest", list);
        Collections.sort(list, Collections.reverseOrder(byRest));
        show("by rest, down", list);
        show("frequency", Collections.frequency(list, 3) + Collections.frequency(list, null));
        show("replaced", Collections.replaceAll(list, 3, 4) && !Collections.replaceAll(list, 3, 4));
        show("part", Collections.indexOfSubList(list, Arrays.asList(4, 4)) + 100 * Collections.indexOfSubList(list, Arrays.asList(99)));
        show("part", Collections.lastIndexOfSubList(list, Arrays.asList(4)) + 100 * Collections.lastIndexOfSubList(list, new ArrayList<Integer>()));
        List<Integer> target = new ArrayList<Integer>(Collections.nCopies(14, 0));
        Collections.copy(target, list);
        show("copied", target);
        Collections.fill(list, 8);
        show("filled", list);
        show("added", Collections.addAll(list, 1, 2, 3));
        show("added", Collections.addAll(list));
        show("then", list);
        show("disjoint", Collections.disjoint(list, target) || !Collections.disjoint(list, Arrays.asList(99, 98)));
        try {
            Collections.copy(new ArrayList<Integer>(), list);
        } catch (IndexOutOfBoundsException e) {
            show("copy", e);
        }
        try {
            Collections.max(new ArrayList<Integer>());
        } catch (RuntimeException e) {
            show("max", e);
        }
        List<Integer> none = new ArrayList<Integer>();
        Collections.rotate(none, 3);
        Collections.reverse(none);
        Collections.sort(none);
        show("none", none);
    }

    static void texts() {
        List<String> words = new ArrayList<String>(Arrays.asList("pear", "Fig", "apple", "kiwi"));
        show("words", Collections.min(words) + Collections.max(words));
        Collections.sort(words, Collections.<String>reverseOrder());
        show("words", words);
    }

    static void small() {
        show("copies", Collections.nCopies(3, "x"));
        show("copies", Collections.nCopies(0, "x").hashCode() + Collections.nCopies(2, null).hashCode());
        show("empty", Collections.emptyList().toString() + Collections.emptySet().toString() + Collections.emptyMap().toString());
        show("single", Collections.singletonList(1).toString() + Collections.singleton("s").toString() + Collections.singletonMap("k", "v").toString());
        show("equal", Collections.emptyList().equals(new ArrayList<String>()) && Collections.singleton(1).equals(new HashSet<Integer>(Arrays.asList(1))));
        show("equal", new HashMap<String, String>().equals(Collections.emptyMap()) && Collections.singletonMap("a", 1).hashCode() == ("a".hashCode() ^ 1));
        show("found", Collections.singletonMap("k", 7).get("k") + (Collections.singletonMap("k", 7).containsKey("z") ? 100 : 0));
        show("found", Collections.singleton(null).contains(null) && !Collections.emptySet().iterator().hasNext());
        try {
            Collections.nCopies(-1, "x");
        } catch (IllegalArgumentException e) {
            show("copies", e);
        }
    }

    /** Calls that change nothing, or that are refused, of what has no elements or one. */
    static Object few(int which) {
        List<String> noList = Collections.emptyList();
        Set<String> noSet = Collections.emptySet();
        Map<String, String> noMap = Collections.emptyMap();
        List<String> oneList = Collections.singletonList("y");
        Set<String> oneSet = Collections.singleton("y");
        Map<String, String> oneMap = Collections.singletonMap("y", "z");
        switch (which) {
            case 0: noSet.clear(); return noSet;
            case 1: noMap.clear(); return noMap;
            case 2: noList.clear(); return noList;
            case 3: return noSet.remove("x");
            case 4: return noMap.remove("x");
            case 5: return noSet.addAll(noList) || noList.addAll(noSet) || noSet.removeAll(oneSet) || noSet.retainAll(oneSet);
            case 6: return oneSet.remove("x");
            case 7: return oneSet.remove("y");
            case 8: return oneSet.addAll(noSet) || oneList.addAll(noSet) || oneSet.removeAll(noSet) || oneSet.retainAll(oneSet);
            case 9: return oneSet.addAll(oneSet);
            case 10: return oneSet.retainAll(noSet);
            case 11: oneSet.clear(); return oneSet;
            case 12: return oneMap.remove("x");
            case 13: return oneMap.remove("y");
            case 14: oneMap.clear(); return oneMap;
            case 15: oneMap.putAll(noMap); return oneMap;
            case 16: return oneMap.putIfAbsent("y", "w");
            case 17: return noMap.putIfAbsent("y", "w");
            case 18: return oneMap.entrySet().iterator().next().setValue("w");
            case 19: return oneMap.values().equals(Collections.singleton("z")) && noMap.values().equals(noSet);
            case 20: return oneMap.keySet().remove("x") || oneMap.values().remove("x") || oneMap.entrySet().remove("x");
            case 21: oneMap.keySet().clear(); return oneMap;
            case 22: noMap.keySet().clear(); noMap.values().clear(); noMap.entrySet().clear(); return noMap;
            case 23: return noList.get(0);
            case 24: return oneList.get(1);
            case 25: return Collections.nCopies(2, "x").get(-1);
            case 26: Collections.sort(oneList); Collections.sort(noList); return oneList;
            case 27: Collections.sort(Collections.nCopies(1, "x")); return null;
            case 28: oneSet.iterator().remove(); return oneSet;
            case 29: oneList.iterator().remove(); return oneList;
            case 30: oneList.listIterator().remove(); return oneList;
            case 31: noSet.iterator().remove(); return noSet;
            case 32: return noSet.iterator().next();
            default: return noList.listIterator(1);
        }
    }

    static void fews() {
        for (int i = 0; i < 34; i++) {
            try {
                show("few " + i, few(i));
            } catch (RuntimeException e) {
                show("few " + i, e);
            }
        }
    }

    static void refused(String what, Runnable change) {
        try {
            change.run();
            show(what, "no exception");
        } catch (UnsupportedOperationException e) {
            show(what, e);
        }
    }

    static void views() {
        final List<String> list = new ArrayList<String>(Arrays.asList("a", "b", "c"));
        final List<String> view = Collections.unmodifiableList(list);
        list.add("d");
        show("view", view);
        show("by index", view instanceof RandomAccess && !(Collections.unmodifiableList(new LinkedList<String>(list)) instanceof RandomAccess));
        show("view", view.get(3) + view.size() + view.indexOf("c") + view.lastIndexOf("z") + view.contains("a") + view.subList(1, 3).toString());
        show("equal", view.equals(list) && list.equals(view) && view.hashCode() == list.hashCode());
        show("array", Arrays.toString(view.toArray()) + Arrays.toString(view.toArray(new String[4])));
        for (ListIterator<String> each = view.listIterator(4); each.hasPrevious();) {
            show("back " + each.previousIndex(), each.previous());
        }
        refused("add", new Runnable() {
            public void run() {
                view.add("e");
            }
        });
        refused("set", new Runnable() {
            public void run() {
                view.set(0, "e");
            }
        });
        refused("remove", new Runnable() {
            public void run() {
                Iterator<String> each = view.iterator();
                each.next();
                each.remove();
            }
        });
        refused("clear", new Runnable() {
            public void run() {
                view.subList(0, 2).clear();
            }
        });
        refused("sort", new Runnable() {
            public void run() {
                Collections.sort(view);
            }
        });
        final Set<String> set = Collections.unmodifiableSet(new HashSet<String>(list));
        show("set", set.toString() + set.equals(new HashSet<String>(list)) + (set.hashCode() == new HashSet<String>(list).hashCode()));
        refused("set", new Runnable() {
            public void run() {
                set.remove("a");
            }
        });
        final Map<String, Integer> map = new HashMap<String, Integer>();
        map.put("one", 1);
        map.put("two", 2);
        final Map<String, Integer> fixed = Collections.unmodifiableMap(map);
        show("map", fixed.toString() + fixed.get("one").intValue() + fixed.containsKey("two") + fixed.containsValue(3) + fixed.size() + fixed.equals(map));
        show("map", fixed.keySet().toString() + fixed.values().toString() + fixed.entrySet().toString());
        refused("put", new Runnable() {
            public void run() {
                fixed.put("three", 3);
            }
        });
        refused("keys", new Runnable() {
            public void run() {
                fixed.keySet().clear();
            }
        });
        refused("entry", new Runnable() {
            public void run() {
                fixed.entrySet().iterator().next().setValue(7);
            }
        });
        final Collection<String> all = Collections.unmodifiableCollection(list);
        show("all", all.toString() + all.isEmpty() + all.containsAll(list));
        refused("all", new Runnable() {
            public void run() {
                all.addAll(list);
            }
        });
        Enumeration<String> each = Collections.enumeration(list);
        show("first", each.nextElement());
        show("rest", Collections.list(each));
    }

    public static void main(String[] args) {
        lists(new ArrayList<Integer>());
        lists(new LinkedList<Integer>());
        texts();
        small();
        fews();
        views();
    }
}
