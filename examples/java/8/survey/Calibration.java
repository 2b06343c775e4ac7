package survey;

import java.util.Arrays;
import java.util.function.DoubleBinaryOperator;
import java.util.function.DoubleUnaryOperator;
import java.util.function.LongBinaryOperator;
import java.util.function.ToDoubleFunction;

/** Arithmetic on long and double in functions that are composed: least squares, roots, fixed-point numbers. */
public final class Calibration {
    private static final long ONE = 1L << 16;
    private static final DoubleBinaryOperator SQUARES = (sum, next) -> sum + next * next;

    private final double slope;
    private final double offset;

    private Calibration(double slope, double offset) {
        this.slope = slope;
        this.offset = offset;
    }

    /** The line that is nearest to the points. */
    public static Calibration of(double[]... points) {
        double count = points.length;
        double sumX = sum(point -> point[0], points);
        double sumY = sum(point -> point[1], points);
        double sumXX = sum(point -> point[0] * point[0], points);
        double sumXY = sum(point -> point[0] * point[1], points);
        double slope = (count * sumXY - sumX * sumY) / (count * sumXX - sumX * sumX);
        return new Calibration(slope, (sumY - slope * sumX) / count);
    }

    @SafeVarargs
    @SuppressWarnings("varargs")
    private static <T> double sum(ToDoubleFunction<? super T> part, T... items) {
        return Arrays.stream(items).mapToDouble(part).sum();
    }

    public DoubleUnaryOperator corrected() {
        DoubleUnaryOperator scaled = raw -> raw * slope;
        return scaled.andThen(level -> level + offset).andThen(level -> Math.rint(level * 1e6) / 1e6);
    }

    public DoubleUnaryOperator raw() {
        return level -> (level - offset) / slope;
    }

    /** A root of a function between two places of unlike sign, by halving. */
    public static double root(DoubleUnaryOperator function, double low, double high) {
        double from = low;
        double to = high;
        boolean rises = function.applyAsDouble(from) < 0;
        for (int step = 0; step < 60 && to - from > 1e-12; step++) {
            double middle = from + (to - from) / 2;
            if (function.applyAsDouble(middle) < 0 == rises) {
                from = middle;
            } else {
                to = middle;
            }
        }
        return (from + to) / 2;
    }

    public static double length(double... parts) {
        double sum = 0;
        for (double part : parts) {
            sum = SQUARES.applyAsDouble(sum, part);
        }
        return Math.sqrt(sum);
    }

    public static long fixed(double number) {
        return (long) (number * ONE + (number < 0 ? -0.5 : 0.5));
    }

    /** An operation on numbers of 16 binary places, by its sign. */
    public static LongBinaryOperator operation(char sign) {
        switch (sign) {
            case '+':
                return Long::sum;
            case '-':
                return (one, other) -> one - other;
            case '*':
                return (one, other) -> one * other >> 16;
            case '/':
                return (one, other) -> (one << 16) / other;
            case '%':
                return (one, other) -> other == 0 ? Long.MIN_VALUE : one % other;
            default:
                throw new IllegalArgumentException(Character.toString(sign));
        }
    }

    public static String decimal(long fixed) {
        StringBuilder text = new StringBuilder(fixed < 0 ? "-" : "");
        long rest = Math.abs(fixed);
        text.append(rest >>> 16);
        rest &= ONE - 1;
        for (char separator = '.'; rest != 0 && text.length() < 12; rest &= ONE - 1) {
            if (separator != 0) {
                text.append(separator);
                separator = 0;
            }
            rest *= 10;
            text.append((char) ('0' + (int) (rest >>> 16)));
        }
        return text.toString();
    }
}
