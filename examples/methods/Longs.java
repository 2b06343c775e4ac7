/** Arithmetic on long. */
class Longs {
    static long power(long base, int exponent) {
        long result = 1;
        while (exponent > 0) {
            if ((exponent & 1) == 1) result *= base;
            base *= base;
            exponent >>= 1;
        }
        return result;
    }

    static long mixed(int a, long b, int c) {
        return a * b - (b >>> c) + (long) c * a;
    }

    static int compare(long a, long b) {
        if (a < b) return -1;
        return a == b ? 0 : 1;
    }

    static long divide(long a, long b) {
        return a / b + a % b;
    }

    static int low(long n) {
        return (int) n;
    }

    static long hash(int rounds) {
        long state = 0x9e3779b97f4a7c15L;
        for (int i = 0; i < rounds; i++) {
            state ^= state << 13;
            state ^= state >>> 7;
            state ^= state << 17;
        }
        return state;
    }
}
