/** Inner classes, which reach private members and keep what they see. */
class Inner {
    private int count;

    class Counter {
        private int step;

        Counter(int step) {
            this.step = step;
        }

        int next() {
            count += step;
            return count;
        }
    }

    Counter counter(int step) {
        return new Counter(step);
    }

    interface Source {
        int next();
    }

    static int counted(int step, int times) {
        Inner outer = new Inner();
        Counter counter = outer.counter(step);
        int last = 0;
        for (int i = 0; i < times; i++) last = counter.next();
        return last * 100 + outer.count + counter.step;
    }

    static Source from(final int first) {
        return new Source() {
            int at = first;

            public int next() {
                return at++;
            }
        };
    }

    static int sources(int first) {
        Source one = from(first);
        Source other = from(10 * first);
        return one.next() + one.next() + other.next();
    }

    static int local(int n) {
        class Pair {
            int left = n;
            int right = left + 1;
        }
        Pair pair = new Pair();
        return pair.left * pair.right;
    }
}
