/** Arithmetic on int and what is narrower, and loops. */
class Numbers {
    static int gcd(int a, int b) {
        while (b != 0) {
            int rest = a % b;
            a = b;
            b = rest;
        }
        return a;
    }

    static int collatz(int n) {
        int steps = 0;
        while (n != 1) {
            n = (n & 1) == 0 ? n >> 1 : 3 * n + 1;
            steps++;
        }
        return steps;
    }

    static int bits(int n) {
        int count = 0;
        for (; n != 0; n &= n - 1) count++;
        return count;
    }

    static int shifts(int n, int by) {
        return (n << by) ^ (n >> by) ^ (n >>> by);
    }

    static int divide(int a, int b) {
        return a / b;
    }

    static int remainder(int a, int b) {
        return a % b;
    }

    static int narrowed(int n) {
        byte b = (byte) n;
        short s = (short) n;
        char c = (char) n;
        return b * 3 + s * 5 + c * 7;
    }

    static byte asByte(int n) {
        return (byte) n;
    }

    static char asChar(int n) {
        return (char) n;
    }

    static boolean between(int n, int low, int high) {
        return low <= n && n < high;
    }

    static int dense(int n) {
        switch (n) {
            case 1: return 10;
            case 2: return 20;
            case 3:
            case 4: n += 30;
            case 5: return n;
            default: return -1;
        }
    }

    static int sparse(int n) {
        switch (n) {
            case -1000000: return 1;
            case 0: return 2;
            case 77: return 3;
            case 2147483647: return 4;
            default: return 0;
        }
    }

    static int labelled(int n) {
        int sum = 0;
        outer:
        for (int i = 0; i < n; i++) {
            for (int j = 0; j < n; j++) {
                if (j > i) continue outer;
                if (i + j > 12) break outer;
                sum += i * j;
            }
        }
        return sum;
    }
}
