package survey;

import java.util.ArrayList;
import java.util.Arrays;
import java.util.Comparator;
import java.util.List;
import java.util.Map;
import java.util.TreeMap;
import java.util.function.BiFunction;
import java.util.function.BinaryOperator;
import java.util.function.Function;
import java.util.function.IntFunction;
import java.util.function.Supplier;
import java.util.function.ToLongFunction;
import java.util.stream.Collectors;
import java.util.stream.IntStream;
import java.util.stream.LongStream;
import java.util.stream.Stream;

/** Lambdas that capture and method references of each kind, passed to streams and to functions of its own. */
public class Readings {
    private final List<Reading> all = new ArrayList<>();
    private int unit = 1;

    public Readings add(String station, long minute, double level) {
        all.add(new Reading(station, minute, level));
        return this;
    }

    public Readings in(int unit) {
        this.unit = unit;
        return this;
    }

    public Map<String, Double> meanByStation() {
        return all.stream().collect(Collectors.groupingBy(
                Reading::station, TreeMap::new, Collectors.averagingDouble(reading -> reading.level * unit)));
    }

    public List<String> latestFirst(long from) {
        return all.stream()
                .filter(reading -> reading.minute >= from)
                .sorted(Comparator.comparingLong((Reading reading) -> reading.minute)
                        .reversed()
                        .thenComparing(Reading::station))
                .map(Object::toString)
                .collect(Collectors.toList());
    }

    public Reading[] peaks() {
        return IntStream.range(1, all.size() - 1)
                .filter(this::isPeak)
                .mapToObj(all::get)
                .toArray(Reading[]::new);
    }

    private boolean isPeak(int at) {
        double level = all.get(at).level;
        return level > all.get(at - 1).level && level > all.get(at + 1).level;
    }

    public long spread(ToLongFunction<? super Reading> key) {
        LongStream keys = all.stream().mapToLong(key);
        long[] ends = keys.collect(
                () -> new long[] {Long.MAX_VALUE, Long.MIN_VALUE},
                (found, next) -> {
                    found[0] = Math.min(found[0], next);
                    found[1] = Math.max(found[1], next);
                },
                (found, other) -> {
                    found[0] = Math.min(found[0], other[0]);
                    found[1] = Math.max(found[1], other[1]);
                });
        return ends[1] - ends[0];
    }

    /** Folds from the left by a function of two arguments. */
    public static <T, R> R fold(
            Iterable<? extends T> items, R start, BiFunction<? super R, ? super T, ? extends R> step) {
        R result = start;
        for (T item : items) {
            result = step.apply(result, item);
        }
        return result;
    }

    @SafeVarargs
    @SuppressWarnings("varargs")
    public static <T> Function<T, T> chain(Function<T, T>... steps) {
        return Stream.of(steps).reduce(Function.identity(), Function::andThen);
    }

    public static String stars(int... counts) {
        IntFunction<String> line = count -> {
            char[] stars = new char[count];
            Arrays.fill(stars, '*');
            return String.valueOf(stars);
        };
        return IntStream.of(counts).mapToObj(line).collect(Collectors.joining("|", "<", ">"));
    }

    public static List<Supplier<Integer>> counters(int many) {
        List<Supplier<Integer>> counters = new ArrayList<>();
        for (int number = 0; number < many; number++) {
            int[] next = {number};
            counters.add(() -> next[0]++);
        }
        return counters;
    }

    public static <T extends Comparable<T>> BinaryOperator<T> larger() {
        return (one, other) -> one.compareTo(other) >= 0 ? one : other;
    }

    /** A static nested class of values, which method references name. */
    public static final class Reading {
        final String station;
        final long minute;
        final double level;

        Reading(String station, long minute, double level) {
            this.station = station;
            this.minute = minute;
            this.level = level;
        }

        String station() {
            return station;
        }

        @Override
        public String toString() {
            return station + '@' + minute + ':' + level;
        }
    }
}
