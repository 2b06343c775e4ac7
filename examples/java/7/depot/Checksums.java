package depot;

/** Bit operations and narrowing to byte, char and short: CRC-32, base 32, variable-length numbers. */
public final class Checksums {
    private static final int[] CRC = new int[256];
    private static final char[] DIGITS = "abcdefghijklmnopqrstuvwxyz234567".toCharArray();

    static {
        for (int index = 0; index < CRC.length; index++) {
            int value = index;
            for (int bit = 0; bit < 8; bit++) {
                value = (value & 1) != 0 ? (value >>> 1) ^ 0xEDB88320 : value >>> 1;
            }
            CRC[index] = value;
        }
    }

    private Checksums() {}

    public static int crc32(byte[] bytes) {
        int crc = ~0;
        for (byte next : bytes) {
            crc = CRC[(crc ^ next) & 0xFF] ^ (crc >>> 8);
        }
        return ~crc;
    }

    public static short fletcher16(byte... bytes) {
        short first = 0;
        short second = 0;
        for (int index = 0; index < bytes.length; index++) {
            first = (short) ((first + (bytes[index] & 0xFF)) % 255);
            second += first;
            second %= 255;
        }
        return (short) (second << 8 | first);
    }

    public static String base32(byte[] bytes) {
        StringBuilder text = new StringBuilder((bytes.length * 8 + 4) / 5);
        int held = 0;
        int bits = 0;
        for (int index = 0; index < bytes.length; index++) {
            held = held << 8 | bytes[index] & 0xFF;
            bits += 8;
            while (bits >= 5) {
                bits -= 5;
                text.append(DIGITS[held >> bits & 31]);
            }
        }
        return bits == 0 ? text.toString() : text.append(DIGITS[held << 5 - bits & 31]).toString();
    }

    /** Writes a number seven bits a byte, the least first, and returns the place behind it. */
    public static int writeNumber(long number, byte[] target, int from) {
        int at = from;
        while ((number & ~0x7FL) != 0L) {
            target[at++] = (byte) (number & 0x7F | 0x80);
            number >>>= 7;
        }
        target[at] = (byte) number;
        return at + 1;
    }

    public static long readNumber(byte[] source, int from) {
        long number = 0;
        int shift = 0;
        byte next;
        do {
            next = source[from++];
            number |= (long) (next & 0x7F) << shift;
            shift += 7;
        } while (next < 0);
        return number;
    }

    /** A text with each letter moved on in the alphabet. */
    public static String shifted(String text, int by) {
        char[] letters = text.toCharArray();
        for (int index = 0; index < letters.length; index++) {
            char letter = letters[index];
            if (letter >= 'a' && letter <= 'z') {
                letter -= 'a';
                letter += by;
                letter %= 26;
                letters[index] = (char) (letter + 'a');
            } else {
                letters[index]--;
            }
        }
        return new String(letters);
    }

    public static long interleave(int low, int high) {
        return spread(low) | spread(high) << 1;
    }

    private static long spread(int number) {
        long bits = number & 0xFFFFFFFFL;
        bits = (bits | bits << 16) & 0x0000FFFF0000FFFFL;
        bits = (bits | bits << 8) & 0x00FF00FF00FF00FFL;
        bits = (bits | bits << 4) & 0x0F0F0F0F0F0F0F0FL;
        bits = (bits | bits << 2) & 0x3333333333333333L;
        return (bits | bits << 1) & 0x5555555555555555L;
    }

    public static int rotated(int number, int by) {
        return number << by | number >>> -by;
    }

    public static boolean parity(long number) {
        boolean odd = false;
        for (; number != 0; number &= number - 1) {
            odd ^= true;
        }
        return odd;
    }
}
