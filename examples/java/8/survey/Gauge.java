package survey;

import java.util.Optional;
import java.util.function.DoubleUnaryOperator;

/** An interface with default and static methods, and types below it that inherit two defaults. */
@FunctionalInterface
public interface Gauge {
    double level();

    default String name() {
        return "gauge";
    }

    default Gauge through(DoubleUnaryOperator correction) {
        return () -> correction.applyAsDouble(level());
    }

    default Optional<String> alarm(double limit) {
        return level() > limit ? Optional.of(name() + " above " + limit) : Optional.empty();
    }

    static Gauge fixed(double level) {
        return () -> level;
    }

    static Gauge highest(Gauge... gauges) {
        return () -> {
            double highest = Double.NEGATIVE_INFINITY;
            for (Gauge gauge : gauges) {
                highest = Math.max(highest, gauge.level());
            }
            return highest;
        };
    }

    /** A second interface with the same default. */
    interface Placed {
        int metre();

        default String name() {
            return "metre " + metre();
        }
    }

    /** An abstract class between an interface and its classes. */
    abstract class River implements Gauge, Placed {
        private final int metre;
        private double last;

        protected River(int metre) {
            this.metre = metre;
        }

        protected abstract double measure();

        @Override
        public int metre() {
            return metre;
        }

        @Override
        public double level() {
            return last = (last + measure()) / 2;
        }

        @Override
        public String name() {
            return Gauge.super.name() + " at " + Placed.super.name();
        }
    }
}
