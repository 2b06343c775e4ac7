/** Exceptions of the machine and of the program, handlers and finally. */
class Throwing {
    static class Bad extends RuntimeException {
        final int code;

        Bad(int code) {
            this.code = code;
        }
    }

    static int caught(int divisor) {
        try {
            return 10 / divisor;
        } catch (ArithmeticException e) {
            return -1;
        }
    }

    static int trace;

    static int last(int divisor) {
        trace = 0;
        try {
            trace += 1;
            return 100 / divisor;
        } finally {
            trace += 10;
        }
    }

    static int nested(int which) {
        int state = 0;
        try {
            state = 1;
            try {
                int[] cells = new int[which];
                cells[3] = 1;
                state = 2;
            } catch (ArrayIndexOutOfBoundsException e) {
                state = 30;
                if (which == 2) throw new Bad(which);
            } finally {
                state += 100;
            }
        } catch (NegativeArraySizeException e) {
            state += 1000;
        } catch (Bad e) {
            state += 10000 * e.code;
        }
        return state;
    }

    static int raised(int code) {
        throw new Bad(code);
    }

    static int through(int code) {
        try {
            return raised(code);
        } catch (Bad bad) {
            return bad.code + 1;
        }
    }

    static int missing(int which) {
        int[] cells = which == 0 ? null : new int[] { which };
        try {
            return cells[0];
        } catch (NullPointerException e) {
            return -7;
        }
    }

    static int unhandled(int which) {
        Throwing none = null;
        return which == 0 ? none.hashed() : which;
    }

    int hashed() {
        return 1;
    }

    static int loops(int n) {
        int sum = 0;
        for (int i = 0; i < n; i++) {
            try {
                if (i % 3 == 0) continue;
                if (i == 8) break;
                sum += i;
            } finally {
                sum += 100;
            }
        }
        return sum;
    }

    static int rethrown(int divisor) {
        try {
            try {
                return 1 / divisor;
            } catch (ArithmeticException e) {
                trace = 5;
                throw e;
            }
        } finally {
            trace++;
        }
    }
}
