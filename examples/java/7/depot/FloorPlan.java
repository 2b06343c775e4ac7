package depot;

/** Arrays of every kind and of two and three dimensions, and loops that are left by their labels. */
public class FloorPlan {
    private static final int[][] STEPS = {{0, 1}, {1, 0}, {0, -1}, {-1, 0}};
    private static final int FAR = Integer.MAX_VALUE;

    private final boolean[][] blocked;
    private final int rows;
    private final int columns;

    public FloorPlan(String... lines) {
        rows = lines.length;
        columns = rows == 0 ? 0 : lines[0].length();
        blocked = new boolean[rows][columns];
        for (int row = 0; row < rows; row++) {
            for (int column = 0; column < columns; column++) {
                blocked[row][column] = lines[row].charAt(column) == '#';
            }
        }
    }

    /** The length of the shortest way between two corners, or -1 where there is none. */
    public int shortestWay() {
        int[][] away = new int[rows][];
        for (int row = 0; row < rows; row++) {
            away[row] = new int[columns];
            java.util.Arrays.fill(away[row], FAR);
        }
        int[][] queue = new int[rows * columns][2];
        int head = 0;
        int tail = 0;
        away[0][0] = 0;
        queue[tail++] = new int[] {0, 0};
        search:
        while (head < tail) {
            int[] here = queue[head++];
            for (int[] step : STEPS) {
                int row = here[0] + step[0];
                int column = here[1] + step[1];
                if (row < 0 || row >= rows || column < 0 || column >= columns) {
                    continue;
                }
                if (blocked[row][column] || away[row][column] != FAR) {
                    continue;
                }
                away[row][column] = away[here[0]][here[1]] + 1;
                if (row == rows - 1 && column == columns - 1) {
                    break search;
                }
                queue[tail++] = new int[] {row, column};
            }
        }
        int found = away[rows - 1][columns - 1];
        return found == FAR ? -1 : found;
    }

    /** The first place of the upper left corner of a free square, row by row. */
    public int[] freeSquare(int side) {
        rows:
        for (int top = 0; top + side <= rows; top++) {
            columns:
            for (int left = 0; left + side <= columns; left++) {
                for (int row = top; row < top + side; row++) {
                    for (int column = left; column < left + side; column++) {
                        if (blocked[row][column]) {
                            if (column == columns - 1) {
                                continue rows;
                            }
                            continue columns;
                        }
                    }
                }
                return new int[] {top, left};
            }
        }
        return null;
    }

    /** Shelves by aisle, rack and level, with a number in each. */
    public static long[][][] shelves(int aisles, int racks, int levels) {
        long[][][] shelves = new long[aisles][racks][levels];
        long number = 1L << 40;
        for (long[][] aisle : shelves) {
            for (long[] rack : aisle) {
                for (int level = rack.length - 1; level >= 0; level--) {
                    rack[level] = number--;
                }
            }
        }
        return shelves;
    }

    public static double[][] product(double[][] left, double[][] right) {
        double[][] product = new double[left.length][right[0].length];
        for (int row = 0; row < left.length; row++) {
            for (int column = 0; column < right[0].length; column++) {
                for (int inner = 0; inner < right.length; inner++) {
                    product[row][column] += left[row][inner] * right[inner][column];
                }
            }
        }
        return product;
    }

    /** One array of each kind, summed up by their lengths and ends. */
    public static int oneOfEach() {
        byte[] bytes = {1, -2, 3};
        short[] shorts = {300, -400};
        char[] chars = {'a', '\u00e9', '\uffff'};
        int[] ints = {0x10000, -1};
        long[] longs = {1L << 33};
        float[] floats = {1.5f, 2.5f};
        double[] doubles = {0.25, 1e300};
        boolean[] booleans = {true, false, true};
        String[][] names = new String[2][];
        Object[] things = {bytes, shorts, chars, ints, longs, floats, doubles, booleans, names, new Integer[0]};
        bytes[1] += 5;
        shorts[0]++;
        chars[2] >>= 1;
        longs[0] |= 1;
        floats[1] *= 2;
        doubles[0] /= 4;
        booleans[1] |= bytes[1] > 2;
        int sum = things.length;
        sum += bytes[1] + shorts[0] + chars[2] + (int) longs[0] + (int) floats[1] + (int) (doubles[0] * 16);
        return booleans[1] ? sum + ints[0] : sum - ints[1];
    }
}
