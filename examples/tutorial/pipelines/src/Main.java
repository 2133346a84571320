import java.util.ArrayList;
import java.util.Arrays;
import java.util.List;

/** Functions as objects: mapped, filtered, folded, joined. */
public class Main {
    interface Function<A, B> {
        B apply(A value);
    }

    static abstract class Predicate<T> implements Function<T, Boolean> {
        Predicate<T> not() {
            final Predicate<T> outer = this;
            return new Predicate<T>() {
                public Boolean apply(T value) {
                    return !outer.apply(value);
                }
            };
        }
    }

    static <A, B> List<B> map(List<A> list, Function<? super A, ? extends B> function) {
        List<B> result = new ArrayList<B>(list.size());
        for (A each : list) {
            result.add(function.apply(each));
        }
        return result;
    }

    static <T> List<T> filter(List<T> list, Function<? super T, Boolean> predicate) {
        List<T> result = new ArrayList<T>();
        for (T each : list) {
            if (predicate.apply(each)) {
                result.add(each);
            }
        }
        return result;
    }

    static <A, B, C> Function<A, C> then(final Function<A, B> first, final Function<B, C> second) {
        return new Function<A, C>() {
            public C apply(A value) {
                return second.apply(first.apply(value));
            }
        };
    }

    public static void main(String[] args) {
        List<String> words = Arrays.asList("java", "generics", "box", "varargs", "enum");
        final Function<String, Integer> length = new Function<String, Integer>() {
            public Integer apply(String text) {
                return text.length();
            }
        };
        Predicate<Integer> even = new Predicate<Integer>() {
            public Boolean apply(Integer number) {
                return number % 2 == 0;
            }
        };
        System.out.println(map(words, length) + " " + filter(map(words, length), even));
        System.out.println(filter(words, then(length, even.not())));
        System.out.println(map(filter(words, then(length, even)), new Function<Object, String>() {
            public String apply(Object value) {
                return "<" + value + ">";
            }
        }));
    }
}
