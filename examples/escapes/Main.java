/** Objects that seldom leave the method that makes them: a point, an iterator and a lock. */
class Main {
    /** The library sees the point where its x is negative, and only there. */
    static int norm(int x, int y) {
        Point p = new Point(x, y);
        if (p.x < 0) {
            L.use(p);
            return -1;
        }
        return p.x + p.y();
    }

    /** The iterator lives as long as the loop. */
    static int sum(int end) {
        int sum = 0;
        for (Range numbers = new Range(end); numbers.hasNext(); ) {
            sum += numbers.next();
        }
        return sum;
    }

    /** No other thread can hold this lock. */
    static int locked(int x) {
        Point lock = new Point(x, 1);
        synchronized (lock) {
            return lock.x + lock.y();
        }
    }
}

class Point {
    int x;
    int y;

    Point(int x, int y) {
        this.x = x;
        this.y = y;
    }

    int y() {
        return y;
    }
}

class Range {
    private int next;
    private final int end;

    Range(int end) {
        this.end = end;
    }

    boolean hasNext() {
        return next < end;
    }

    int next() {
        return next++;
    }
}
