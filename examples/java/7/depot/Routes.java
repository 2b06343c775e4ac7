package depot;

import java.util.ArrayList;
import java.util.HashMap;
import java.util.List;
import java.util.Map;

/** Recursion, direct and mutual, with local classes that capture, varargs and overloads. */
public class Routes {
    /** An interface with a constant, and nested types. */
    interface Visitor<R> {
        int MOST = 64;

        R stop(String name);

        R fork(Node left, Node right);
    }

    /** An abstract nested class with a generic method. */
    abstract static class Node {
        abstract <R> R accept(Visitor<R> visitor);
    }

    static Node stop(final String name) {
        return new Node() {
            @Override
            <R> R accept(Visitor<R> visitor) {
                return visitor.stop(name);
            }
        };
    }

    static Node fork(final Node left, final Node right) {
        class Fork extends Node {
            private final int depth;

            Fork(int depth) {
                this.depth = depth;
            }

            @Override
            <R> R accept(Visitor<R> visitor) {
                if (depth > Visitor.MOST) {
                    throw new IllegalStateException("too deep: " + depth);
                }
                return visitor.fork(left, right);
            }
        }
        return new Fork(1 + Math.max(depth(left), depth(right)));
    }

    static int depth(Node node) {
        return node.accept(new Visitor<Integer>() {
            @Override
            public Integer stop(String name) {
                return 0;
            }

            @Override
            public Integer fork(Node left, Node right) {
                return 1 + Math.max(left.accept(this), right.accept(this));
            }
        });
    }

    static List<String> stops(Node node) {
        final List<String> names = new ArrayList<>();
        node.accept(new Visitor<Void>() {
            @Override
            public Void stop(String name) {
                names.add(name);
                return null;
            }

            @Override
            public Void fork(Node left, Node right) {
                left.accept(this);
                return right.accept(this);
            }
        });
        return names;
    }

    /** A balanced tree over names. */
    static Node over(String... names) {
        return over(0, names.length, names);
    }

    private static Node over(int from, int to, String... names) {
        if (to - from == 1) {
            return stop(names[from]);
        }
        int middle = (from + to) >>> 1;
        return fork(over(from, middle, names), over(middle, to, names));
    }

    /** In how many ways a load of some grams is made up of weights, each used any number of times. */
    public static long ways(int grams, int... weights) {
        return ways(grams, weights.length, weights, new HashMap<Long, Long>());
    }

    private static long ways(int grams, int kinds, int[] weights, Map<Long, Long> known) {
        if (grams == 0) {
            return 1;
        }
        if (grams < 0 || kinds == 0) {
            return 0;
        }
        long key = (long) grams << 32 | kinds;
        Long seen = known.get(key);
        if (seen == null) {
            seen = ways(grams, kinds - 1, weights, known) + ways(grams - weights[kinds - 1], kinds, weights, known);
            known.put(key, seen);
        }
        return seen;
    }

    public static boolean isEven(int number) {
        return number == 0 || isOdd(number - 1);
    }

    private static boolean isOdd(int number) {
        return number != 0 && isEven(number - 1);
    }

    public static long greatestDivisor(long one, long other) {
        return other == 0 ? Math.abs(one) : greatestDivisor(other, one % other);
    }

    public static int ackermann(int one, int other) {
        return one == 0 ? other + 1 : ackermann(one - 1, other == 0 ? 1 : ackermann(one, other - 1));
    }
}
