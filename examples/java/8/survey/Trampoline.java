package survey;

import java.util.HashMap;
import java.util.Map;
import java.util.NoSuchElementException;
import java.util.function.Function;
import java.util.function.IntBinaryOperator;
import java.util.function.LongUnaryOperator;
import java.util.function.Supplier;

/** Recursion through lambdas: calls that are handed back, functions that name themselves, and kept answers. */
public abstract class Trampoline<T> {
    private static final IntBinaryOperator DIVISOR = Trampoline::divisor;

    private Trampoline() {}

    abstract boolean isDone();

    abstract T value();

    abstract Trampoline<T> next();

    public static <T> Trampoline<T> done(T value) {
        return new Trampoline<T>() {
            @Override
            boolean isDone() {
                return true;
            }

            @Override
            T value() {
                return value;
            }

            @Override
            Trampoline<T> next() {
                throw new NoSuchElementException();
            }
        };
    }

    public static <T> Trampoline<T> call(Supplier<Trampoline<T>> supplier) {
        return new Call<>(supplier);
    }

    public T run() {
        Trampoline<T> here = this;
        for (; !here.isDone(); here = here.next()) {}
        return here.value();
    }

    public <R> Trampoline<R> then(Function<? super T, ? extends Trampoline<R>> step) {
        return isDone() ? step.apply(value()) : call(() -> next().then(step));
    }

    public static Trampoline<Boolean> isEven(long number) {
        return number == 0 ? done(true) : call(() -> isOdd(number - 1));
    }

    static Trampoline<Boolean> isOdd(long number) {
        return number == 0 ? done(false) : call(() -> isEven(number - 1));
    }

    public static long fibonacci(int index) {
        Map<Integer, Long> known = new HashMap<>();
        class Memo implements Function<Integer, Long> {
            @Override
            public Long apply(Integer at) {
                Long seen = known.get(at);
                if (seen == null) {
                    seen = at < 2 ? (long) at : apply(at - 1) + apply(at - 2);
                    known.put(at, seen);
                }
                return seen;
            }
        }
        return new Memo().apply(index);
    }

    public static int greatestDivisor(int one, int other) {
        return DIVISOR.applyAsInt(one, other);
    }

    private static int divisor(int one, int other) {
        return other == 0 ? one : DIVISOR.applyAsInt(other, one % other);
    }

    /** How many steps a number takes to reach 1, where even ones are halved and odd ones tripled. */
    public static int steps(long number) {
        LongUnaryOperator odd = from -> 3 * from + 1;
        LongUnaryOperator even = from -> from >> 1;
        int steps = 0;
        while (number != 1) {
            number = ((number & 1) == 0 ? even : odd).applyAsLong(number);
            steps++;
        }
        return steps;
    }

    /** A private nested class that the outer one alone makes. */
    private static final class Call<T> extends Trampoline<T> {
        private final Supplier<Trampoline<T>> supplier;

        Call(Supplier<Trampoline<T>> supplier) {
            this.supplier = supplier;
        }

        @Override
        boolean isDone() {
            return false;
        }

        @Override
        T value() {
            return run();
        }

        @Override
        Trampoline<T> next() {
            return supplier.get();
        }
    }
}
