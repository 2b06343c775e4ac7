/** A point that the library sees only where it is asked to. */
class Main {
    static int sum(int shown) {
        Point p = new Point(1, 2);
        if (shown == 1) L.use(p);
        return p.x + p.y();
    }
}

class Point {
    int x;
    int y;

    Point(int x, int y) {
        this.x = x;
        this.y = y;
    }

    int y() {
        return y;
    }
}
