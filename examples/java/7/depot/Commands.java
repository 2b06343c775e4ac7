package depot;

import java.util.ArrayDeque;
import java.util.Deque;

/** Switches on strings, on dense and on sparse numbers; exceptions of its own, caught and thrown on. */
public class Commands {
    private final Deque<Long> stack = new ArrayDeque<>();

    /** Does the words of a line one after the other, and returns what is on top at the end. */
    public long run(String line) throws BadCommand {
        int at = 0;
        for (String word : line.trim().split("\\s+")) {
            try {
                step(word);
            } catch (NumberFormatException | ArithmeticException problem) {
                throw new BadCommand(word, at, problem);
            } catch (RuntimeException problem) {
                throw (BadCommand) new BadCommand(word, at, null).initCause(problem);
            }
            at += word.length() + 1;
        }
        if (stack.isEmpty()) {
            throw new BadCommand("", at, null);
        }
        return stack.peek();
    }

    private void step(String word) {
        switch (word) {
            case "add":
                stack.push(stack.pop() + stack.pop());
                break;
            case "subtract":
                stack.push(-(stack.pop() - stack.pop()));
                break;
            case "multiply":
                stack.push(stack.pop() * stack.pop());
                break;
            case "divide": {
                long divisor = stack.pop();
                stack.push(stack.pop() / divisor);
                break;
            }
            case "copy":
                stack.push(stack.peek());
                // falls through: a copy is swapped with itself
            case "swap": {
                Long top = stack.pop();
                Long below = stack.pop();
                stack.push(top);
                stack.push(below);
                break;
            }
            case "Aa": // the hash of BB
                stack.push(1L);
                break;
            case "BB":
                stack.push(2L);
                break;
            default:
                stack.push(Long.parseLong(word));
        }
    }

    public static String dayName(int day) {
        switch (day) {
            case 1:
                return "Monday";
            case 2:
                return "Tuesday";
            case 3:
                return "Wednesday";
            case 4:
                return "Thursday";
            case 5:
                return "Friday";
            case 6:
            case 7:
                return "weekend";
            default:
                return "no day";
        }
    }

    public static int postage(int code) {
        int cents = 0;
        switch (code) {
            case -1_000_000:
                cents++;
            case 7:
                cents += 20;
                break;
            case 10_115:
                cents = 55;
                break;
            case Integer.MAX_VALUE:
                cents -= 1;
                break;
        }
        return cents;
    }

    public static boolean isVowel(char letter) {
        switch (letter) {
            case 'a':
            case 'e':
            case 'i':
            case 'o':
            case 'u':
                return true;
            default:
                return false;
        }
    }

    /** A checked exception with fields, as a static nested class. */
    public static class BadCommand extends Exception {
        private static final long serialVersionUID = 1L;

        private final String word;
        private final int at;

        BadCommand(String word, int at, Throwable cause) {
            super("bad word '" + word + "' at " + at);
            this.word = word;
            this.at = at;
            if (cause != null) {
                initCause(cause);
            }
        }

        public String word() {
            return word;
        }

        public int at() {
            return at;
        }
    }
}
