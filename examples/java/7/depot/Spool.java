package depot;

import java.io.BufferedReader;
import java.io.Closeable;
import java.io.IOException;
import java.io.StringReader;
import java.util.ArrayList;
import java.util.List;

/** try with resources, nested try and finally, returns out of them, and suppressed exceptions. */
public class Spool {
    private final List<String> events = new ArrayList<>();
    private int open;

    public List<String> events() {
        return events;
    }

    public int open() {
        return open;
    }

    /** How many lines a text has, by a reader that is closed. */
    public static int lines(String text) throws IOException {
        int lines = 0;
        try (BufferedReader reader = new BufferedReader(new StringReader(text))) {
            while (reader.readLine() != null) {
                lines++;
            }
        }
        return lines;
    }

    /** Prints on two printers, each of which may fail to print or to close. */
    public boolean print(String text, boolean failing, boolean stuck) {
        try (Printer left = new Printer("left", stuck);
                Printer right = new Printer("right", false)) {
            left.print(text);
            right.print(failing ? null : text);
            return true;
        } catch (IOException problem) {
            events.add(problem.getMessage() + " with " + problem.getSuppressed().length + " suppressed");
            return false;
        } finally {
            events.add("open: " + open);
        }
    }

    /** Returns out of nested blocks, each of which is left through its finally. */
    public int nested(int depth) {
        int result = 0;
        while (true) {
            try {
                try {
                    if (depth == 0) {
                        return result;
                    }
                    if (depth < 0) {
                        break;
                    }
                    if (depth % 3 == 0) {
                        throw new IllegalStateException("three");
                    }
                    result += depth;
                } catch (IllegalStateException three) {
                    result *= 2;
                    continue;
                } finally {
                    depth--;
                    result++;
                }
            } finally {
                result += 10;
            }
        }
        return -result;
    }

    @SuppressWarnings("finally")
    public static int swallowed(int divisor) {
        try {
            return 100 / divisor;
        } finally {
            if (divisor == 0) {
                return -1;
            }
        }
    }

    public static String cause(Runnable job) {
        try {
            job.run();
            return "none";
        } catch (final RuntimeException problem) {
            Throwable last = problem;
            while (last.getCause() != null) {
                last = last.getCause();
            }
            return last.getClass().getSimpleName();
        } catch (Error error) {
            return "error";
        }
    }

    /** An inner class that is a resource. */
    private final class Printer implements Closeable {
        private final String name;
        private final boolean stuck;

        Printer(String name, boolean stuck) {
            this.name = name;
            this.stuck = stuck;
            open++;
        }

        void print(String text) throws IOException {
            if (text == null) {
                throw new IOException(name + " cannot print");
            }
            events.add(name + ": " + text);
        }

        @Override
        public void close() throws IOException {
            open -= 1;
            if (stuck) {
                throw new IOException(name + " cannot close");
            }
        }
    }
}
