/** The order in which classes are initialised. */
class Starts {
    static int order = 1;

    static class First {
        static int mark = order = order * 10 + 2;
    }

    static class Second extends First {
        static final int CONSTANT = 99;
        static int mark;

        static {
            order = order * 10 + 3;
            mark = order;
        }

        static int answer() {
            return mark;
        }
    }

    interface Quiet {
        int MARK = order = order * 10 + 4;
    }

    interface Loud {
        int MARK = order = order * 10 + 5;

        default int loud() {
            return MARK;
        }
    }

    static class Third implements Quiet, Loud {}

    static class Circle {
        static int half = Other.mark + 1;
    }

    static class Other {
        static int mark = Circle.half + 10;
    }

    static int constant() {
        return Second.CONSTANT + order;
    }

    static int superclass() {
        return Second.answer();
    }

    static int interfaces() {
        return new Third().loud();
    }

    static int circle() {
        return Circle.half * 100 + Other.mark;
    }
}
