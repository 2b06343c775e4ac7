package depot;

/** Synchronized methods and blocks, volatile fields, and threads that wait for one another. */
public class Conveyor<T> {
    private static int made;
    private static volatile boolean halted;

    private final Object[] places;
    private final Object counting = new Object();
    private int first;
    private int held;
    private transient long moved;

    public Conveyor(int places) {
        this.places = new Object[places];
        synchronized (Conveyor.class) {
            made++;
        }
    }

    public static synchronized int made() {
        return made;
    }

    public static void halt(boolean halt) {
        halted = halt;
    }

    public synchronized void put(T item) throws InterruptedException {
        while (held == places.length && !halted) {
            wait();
        }
        if (halted) {
            throw new IllegalStateException("halted");
        }
        places[(first + held++) % places.length] = item;
        notifyAll();
    }

    @SuppressWarnings("unchecked")
    public synchronized T take() throws InterruptedException {
        while (held == 0) {
            wait();
        }
        T item = (T) places[first];
        places[first] = null;
        first = (first + 1) % places.length;
        held--;
        notifyAll();
        synchronized (counting) {
            moved++;
        }
        return item;
    }

    public long moved() {
        synchronized (counting) {
            return moved;
        }
    }

    /** Sends numbers from one thread to another, and returns their sum as it arrived. */
    public static long sumOverThreads(final int count) throws InterruptedException {
        final Conveyor<Integer> conveyor = new Conveyor<>(3);
        final long[] sum = new long[1];
        Thread sender = new Thread("sender") {
            @Override
            public void run() {
                try {
                    for (int number = 1; number <= count; number++) {
                        conveyor.put(number);
                    }
                } catch (InterruptedException interrupted) {
                    Thread.currentThread().interrupt();
                }
            }
        };
        Thread receiver = new Thread(new Runnable() {
            @Override
            public void run() {
                try {
                    for (int rest = count; rest > 0; rest--) {
                        int number = conveyor.take();
                        synchronized (sum) {
                            sum[0] += number;
                        }
                    }
                } catch (InterruptedException interrupted) {
                    Thread.currentThread().interrupt();
                }
            }
        });
        sender.start();
        receiver.start();
        sender.join();
        receiver.join();
        synchronized (sum) {
            return sum[0];
        }
    }
}
