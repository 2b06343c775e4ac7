/** What bench/run.sh runs: loops whose turns all take the same instructions, objects that stay, and calls inside calls. */
public class Turns {
    int total;
    Turns next;

    int add(int n) {
        total += n;
        return total;
    }

    static int mix(int a, int b) {
        return a * 31 + b;
    }

    // A turn takes 53 instructions, those of the calls included: arithmetic, fields, an array, a virtual and a static call.
    static int loop(int turns) {
        Turns t = new Turns();
        int[] cells = new int[16];
        int h = 7;
        for (int i = 0; i < turns; i++) {
            h = mix(h, i);
            cells[i & 15] += h;
            h ^= t.add(cells[(i + 5) & 15]);
            t.total += h >> 3;
        }
        return h + t.total;
    }

    static int objects(int count) {
        Turns first = null;
        for (int i = 0; i < count; i++) {
            Turns turn = new Turns();
            turn.total = i;
            turn.next = first;
            first = turn;
        }
        return first == null ? 0 : first.total;
    }

    static int deep(int calls) {
        return calls == 0 ? 0 : 1 + deep(calls - 1);
    }

    /** Prints the least time of some runs of the loop, in microseconds. */
    public static void main(String[] words) {
        int turns = Integer.parseInt(words[0]);
        long best = Long.MAX_VALUE;
        int kept = 0;
        for (int run = 0; run < 5; run++) {
            long before = System.nanoTime();
            kept += loop(turns);
            best = Math.min(best, System.nanoTime() - before);
        }
        System.err.println(kept);
        System.out.println(best / 1000);
    }
}
