package survey;

import java.io.Serializable;
import java.util.Arrays;
import java.util.List;
import java.util.function.Function;
import java.util.function.LongBinaryOperator;
import java.util.function.Supplier;
import java.util.stream.Collectors;
import java.util.stream.Stream;

/** The program: a day of the survey, which uses every class of the package and prints what it finds. */
public final class SurveyDay {
    private SurveyDay() {}

    public static void main(String... arguments) throws Exception {
        gauges();
        readings();
        recursion();
        settings();
        calibration();
    }

    private static void print(Object... parts) {
        System.out.println(Stream.of(parts).map(String::valueOf).collect(Collectors.joining(" ")));
    }

    private static void gauges() {
        double[] levels = {1.5, 2.25, 4.0};
        int[] next = {0};
        Gauge bridge = new Gauge.River(1200) {
            @Override
            protected double measure() {
                return levels[next[0]++ % levels.length];
            }
        };
        Gauge weir = Gauge.fixed(2.0).through(level -> level * level).through(Math::floor);
        print(bridge.name(), bridge.level(), bridge.level(), weir.level());
        print(Gauge.highest(bridge, weir, Gauge.fixed(-1)).level());
        print(weir.alarm(3.5).map(String::length).orElse(0), weir.alarm(4).isPresent());
    }

    private static void readings() {
        Readings readings = new Readings().in(100);
        readings.add("weir", 10, 2.5).add("bridge", 15, 3.5).add("weir", 20, 3.0);
        readings.add("quay", 20, 3.25).add("bridge", 30, 1.0);
        print(readings.meanByStation());
        print(readings.latestFirst(15));
        print(Arrays.toString(readings.peaks()), readings.spread(reading -> reading.minute));
        List<Integer> numbers = Arrays.asList(3, 1, 4, 1, 5, 9, 2, 6);
        print(Readings.fold(numbers, "", (text, number) -> number + text));
        print(Readings.fold(numbers, 0, Readings.<Integer>larger()));
        print(Readings.<Integer>chain(number -> number + 1, number -> number * 2, Math::negateExact).apply(20));
        print(Readings.stars(3, 0, 1));
        for (Supplier<Integer> counter : Readings.counters(3)) {
            print(counter.get() + counter.get());
        }
    }

    private static void recursion() {
        print(Trampoline.isEven(100_001).run(), Trampoline.isOdd(7).run());
        print(Trampoline.done(20).then(number -> Trampoline.call(() -> Trampoline.done(number + 1))).run());
        print(Trampoline.fibonacci(80), Trampoline.greatestDivisor(252, 105), Trampoline.steps(27));
    }

    private static void settings() throws Exception {
        Settings<String> settings = new Settings<>(new String[] {"b", "m"});
        print(settings.keep("a"), settings.keep("c"), settings.kept(), Settings.rules());
        print(new Settings<>(new Integer[0]).keep(7));
        for (String word : new String[] {"Upper", "trim", "twice", "framed", "none"}) {
            Function<String, String> function = Settings.named(word);
            Function<String, String> copy = function instanceof Serializable ? Settings.copied(function) : function;
            print(word, copy.apply(" level "));
        }
        print(Settings.Level.bits(99), Settings.Level.bits(100), Settings.Level.bits(250), Settings.Level.NORMAL);
    }

    private static void calibration() {
        double[][] points = {{0, 1}, {1, 3}, {2, 5}, {3, 7}};
        Calibration line = Calibration.of(points);
        print(line.corrected().applyAsDouble(10), line.raw().compose(line.corrected()).applyAsDouble(4));
        print(Calibration.root(place -> place * place * place - 2, 0, 2), Calibration.length(2, 3, 6));
        long one = Calibration.fixed(-2.75);
        long other = Calibration.fixed(0.8);
        for (char sign : "+-*/%".toCharArray()) {
            LongBinaryOperator operation = Calibration.operation(sign);
            print(sign, Calibration.decimal(operation.applyAsLong(one, other)));
        }
    }
}
