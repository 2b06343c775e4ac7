/** Methods that call themselves, and structures that refer to their own kind. */
class Recursion {
    static int fibonacci(int n) {
        return n < 2 ? n : fibonacci(n - 1) + fibonacci(n - 2);
    }

    static int ackermann(int m, int n) {
        if (m == 0) return n + 1;
        return n == 0 ? ackermann(m - 1, 1) : ackermann(m - 1, ackermann(m, n - 1));
    }

    static boolean even(int n) {
        return n == 0 || odd(n - 1);
    }

    static boolean odd(int n) {
        return n != 0 && even(n - 1);
    }

    static int queens(int size) {
        return place(size, 0, 0, 0, 0);
    }

    private static int place(int size, int row, int columns, int left, int right) {
        if (row == size) return 1;
        int found = 0;
        for (int column = 0; column < size; column++) {
            int bit = 1 << column;
            if ((columns & bit) != 0 || (left & bit) != 0 || (right & bit) != 0) continue;
            found += place(size, row + 1, columns | bit, (left | bit) << 1, (right | bit) >> 1);
        }
        return found;
    }

    static class Tree {
        int key;
        Tree low;
        Tree high;

        Tree(int key) {
            this.key = key;
        }

        void put(int other) {
            if (other < key) {
                if (low == null) low = new Tree(other);
                else low.put(other);
            } else if (other > key) {
                if (high == null) high = new Tree(other);
                else high.put(other);
            }
        }

        int depth() {
            int one = low == null ? 0 : low.depth();
            int two = high == null ? 0 : high.depth();
            return 1 + (one > two ? one : two);
        }
    }

    static int depth(int count) {
        Tree tree = new Tree(50);
        int key = 17;
        for (int i = 0; i < count; i++) {
            key = (key * 37 + 11) % 101;
            tree.put(key);
        }
        return tree.depth();
    }

    static Tree tree(int key) {
        return new Tree(key);
    }
}
