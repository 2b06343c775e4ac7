/** Monitors: synchronized blocks and methods, left by returns and by throws. */
class Locks {
    int value;

    synchronized int add(int n) {
        value += n;
        return value;
    }

    static synchronized int doubled(int n) {
        return n + n;
    }

    static int block(int n) {
        Locks lock = new Locks();
        synchronized (lock) {
            synchronized (lock) {
                return lock.add(n) + lock.add(1);
            }
        }
    }

    static int left(int n) {
        Locks lock = new Locks();
        try {
            synchronized (lock) {
                lock.value = 10 / n;
            }
        } catch (ArithmeticException e) {
            lock.value = -1;
        }
        return lock.add(doubled(2));
    }

    static int none(int n) {
        Locks lock = n == 0 ? null : new Locks();
        synchronized (lock) {
            return n;
        }
    }
}
