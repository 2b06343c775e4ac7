/** Inheritance, interfaces with default methods, and calls that select. */
class Shapes {
    interface Sized {
        int size();

        default int twice() {
            return 2 * size();
        }

        static int unit() {
            return 1;
        }
    }

    interface Named extends Sized {
        default int code() {
            return 7 + twice();
        }
    }

    abstract static class Shape implements Named {
        final int side;

        Shape(int side) {
            this.side = side;
            seen++;
        }

        abstract int corners();

        public int size() {
            return side * corners();
        }

        int scaled(int by) {
            return size() * by;
        }
    }

    static class Triangle extends Shape {
        Triangle(int side) {
            super(side);
        }

        int corners() {
            return 3;
        }
    }

    static class Square extends Shape {
        Square(int side) {
            super(side + 1);
        }

        int corners() {
            return 4;
        }

        public int twice() {
            return Sized.unit() + super.scaled(2);
        }

        int scaled(int by) {
            return -super.scaled(by);
        }
    }

    static int seen;

    static Shape shape(int which, int side) {
        return which == 0 ? new Triangle(side) : which == 1 ? new Square(side) : null;
    }

    static int selected(int which, int side) {
        Shape shape = shape(which, side);
        return shape.scaled(3) * 1000 + shape.code();
    }

    static int through(int which) {
        Sized sized = shape(which, 5);
        return sized.twice() + sized.size();
    }

    static boolean is(int which) {
        Object shape = shape(which, 1);
        return shape instanceof Square;
    }

    static int narrowed(int which) {
        Object shape = shape(which, 4);
        return ((Square) shape).side;
    }

    static int made(int count) {
        int before = seen;
        for (int i = 0; i < count; i++) shape(i & 1, i);
        return seen - before;
    }
}
