/** Arrays of numbers, of references and of arrays. */
class Arrays {
    static int sum(int length) {
        int[] cells = new int[length];
        for (int i = 0; i < cells.length; i++) cells[i] = i * i;
        int sum = 0;
        for (int cell : cells) sum += cell;
        return sum;
    }

    static int sorted(int seed) {
        int[] cells = new int[9];
        for (int i = 0; i < cells.length; i++) cells[i] = seed = seed * 1103515245 + 12345;
        for (int i = 1; i < cells.length; i++) {
            int cell = cells[i];
            int j = i - 1;
            for (; j >= 0 && cells[j] > cell; j--) cells[j + 1] = cells[j];
            cells[j + 1] = cell;
        }
        return cells[0] ^ cells[4] ^ cells[8];
    }

    static int read(int at) {
        int[] cells = { 3, 1, 4, 1, 5 };
        return cells[at];
    }

    static int sized(int length) {
        return new long[length].length;
    }

    static int nested(int rows, int columns) {
        int[][] table = new int[rows][columns];
        for (int i = 0; i < rows; i++) {
            for (int j = 0; j < columns; j++) table[i][j] = i - j;
        }
        int sum = table.length;
        for (int[] row : table) {
            for (int cell : row) sum = sum * 3 + cell;
        }
        return sum;
    }

    static int ragged(int rows) {
        Object[][] table = new Object[rows][];
        for (int i = 0; i < rows; i++) table[i] = new Arrays[i];
        int sum = 0;
        for (Object[] row : table) sum += row.length;
        return sum;
    }

    static int bytes(int n) {
        byte[] bytes = { 1, 2, 3 };
        char[] chars = { 'a', 'b', 'c' };
        short[] shorts = { 7, 8, 9 };
        boolean[] flags = { true, false, true };
        bytes[0] = (byte) n;
        chars[1] = (char) n;
        shorts[2] = (short) n;
        flags[1] = (n & 1) == 0;
        return bytes[0] + chars[1] + shorts[2] + (flags[1] ? 1000 : 0);
    }

    static int stored(int which) {
        Object[] cells = which == 0 ? new Object[1] : new Arrays[1];
        cells[0] = new int[] { which };
        return cells.length;
    }

    static int cast(int which) {
        Object cells = which == 0 ? new int[] { 5 } : new Object[] { null };
        return ((int[]) cells)[0];
    }

    static long longs(int n) {
        long[] cells = new long[n + 1];
        cells[0] = 1;
        for (int i = 1; i <= n; i++) cells[i] = cells[i - 1] * i;
        return cells[n];
    }
}
