package depot;

/** String building, formatting by hand, characters as numbers, and lazily kept state. */
public class Label {
    private static final char[] HEX = {'0', '1', '2', '3', '4', '5', '6', '7', '8', '9', 'A', 'B', 'C', 'D', 'E', 'F'};

    private final Parcel parcel;
    private String text;

    public Label(Parcel parcel) {
        this.parcel = parcel;
    }

    public String text() {
        return text != null ? text : (text = make());
    }

    private String make() {
        StringBuilder label = new StringBuilder();
        label.append('[').append(parcel.code()).append(']');
        label.append(padded(parcel.grams(), 6)).append(" g ");
        label.append(money(parcel.valueInCents())).append(parcel.isMarked("fragile") ? " !" : "");
        for (int at = label.length(); at < 32; at++) {
            label.append('.');
        }
        return label.append(hex(Checksums.crc32(label.toString().getBytes()))).toString();
    }

    static String padded(int number, int width) {
        String digits = "" + number;
        String blanks = "";
        for (int at = digits.length(); at < width; at++) {
            blanks += ' ';
        }
        return blanks + digits;
    }

    static String money(long cents) {
        long euros = cents / 100;
        long rest = cents % 100;
        return (cents < 0 ? "-" : "") + Math.abs(euros) + ',' + (Math.abs(rest) < 10 ? "0" : "") + Math.abs(rest);
    }

    static String hex(int number) {
        char[] digits = new char[8];
        for (int at = digits.length; --at >= 0; number >>>= 4) {
            digits[at] = HEX[number & 0xF];
        }
        return new String(digits);
    }

    /** Whether a code ends in the digit that its other letters give. */
    static boolean isChecked(String code) {
        if (code == null || code.isEmpty()) {
            return false;
        }
        int sum = 0;
        int last = code.length() - 1;
        for (int at = 0; at < last; ++at) {
            char letter = code.charAt(at);
            int value = letter >= '0' && letter <= '9' ? letter - '0'
                    : letter >= 'A' && letter <= 'Z' ? letter - 'A' + 10
                    : -1;
            if (value == -1) {
                return false;
            }
            sum += (at & 1) == 0 ? value : value * 3;
        }
        return (char) ('0' + sum % 10) == code.charAt(last);
    }

    static String words(Object... parts) {
        StringBuilder words = new StringBuilder();
        for (Object part : parts) {
            if (words.length() > 0) {
                words.append(' ');
            }
            words.append(part instanceof Object[] ? words((Object[]) part) : part);
        }
        return words.insert(0, '<').append('>').toString();
    }

    static boolean isPalindrome(String text) {
        StringBuilder letters = new StringBuilder();
        for (char letter : text.toCharArray()) {
            if (Character.isLetter(letter)) {
                letters.append(Character.toLowerCase(letter));
            }
        }
        String forward = letters.toString();
        return forward.equals(letters.reverse().toString());
    }
}
