package depot;

/** Arithmetic on long, double and float: conversions, comparisons, remainders and ternaries. */
public final class Tariff {
    private static final double TAX = 0.19;
    private static final float BULK_DISCOUNT = 0.125f;
    private static final long[] STEPS_IN_GRAMS = {50L, 500L, 2_000L, 10_000L, 31_500L};
    private static final long[] CENTS = {95L, 160L, 450L, 795L, 1_649L};

    private Tariff() {}

    /** The price in cents before tax, or -1 where the parcel is too heavy. */
    public static long price(Parcel parcel) {
        for (int step = 0; step < STEPS_IN_GRAMS.length; step++) {
            if (parcel.grams() <= STEPS_IN_GRAMS[step]) {
                return CENTS[step] + parcel.zone().surcharge(parcel.grams());
            }
        }
        return -1L;
    }

    public static long withTax(long cents) {
        double gross = cents * (1.0 + TAX);
        return gross >= 0.0 ? (long) (gross + 0.5) : -(long) (-gross + 0.5);
    }

    /** The price of many parcels, cheaper by an eighth from a hundred parcels on. */
    public static long bulk(long centsEach, int parcels) {
        long whole = centsEach * parcels;
        float factor = parcels >= 100 ? 1f - BULK_DISCOUNT : 1f;
        return (long) (whole * (double) factor);
    }

    /** What insurance costs: 2 per mille of the value, at least 1 euro, and at most a cap that grows with it. */
    public static long insurance(long valueInCents) {
        long part = Math.max(100L, valueInCents / 500L + (valueInCents % 500L == 0L ? 0L : 1L));
        double cap = 50.0 * Math.sqrt((double) valueInCents);
        return part > cap ? (long) Math.ceil(cap) : part;
    }

    /** Money with interest for some months, by repeated multiplication. */
    public static double compound(double amount, double ratePerYear, int months) {
        double monthly = 1.0 + ratePerYear / 12.0;
        double result = amount;
        for (int rest = months, base = 0; rest > 0; rest >>= 1, base++) {
            if ((rest & 1) == 1) {
                double power = monthly;
                for (int square = 0; square < base; square++) {
                    power *= power;
                }
                result *= power;
            }
        }
        return result;
    }

    /** Seconds as days, hours, minutes and seconds in one number of decimal pairs. */
    public static long clock(long seconds) {
        long sign = seconds < 0 ? -1 : 1;
        long rest = Math.abs(seconds);
        long days = rest / 86_400L;
        rest -= days * 86_400L;
        long hours = rest / 3_600L;
        rest %= 3_600L;
        return sign * (((days * 100L + hours) * 100L + rest / 60L) * 100L + rest % 60L);
    }

    /** -1, 0, 1, or 2 where one of them is no number. */
    public static int compare(double one, double other) {
        if (one < other) {
            return -1;
        }
        return one > other ? 1 : one == other ? 0 : 2;
    }

    public static boolean nearly(float one, float other, float ratio) {
        float larger = one > other ? one : other;
        float smaller = one > other ? other : one;
        return !(larger - smaller > larger * ratio);
    }

    /** The whole euros of a price, as each narrower kind of number would hold them. */
    public static String narrowed(double euros) {
        int whole = (int) euros;
        long exact = (long) euros;
        float rough = (float) euros;
        byte small = (byte) whole;
        short medium = (short) whole;
        char letter = (char) ('A' + (whole & 15));
        return whole + "/" + exact + "/" + rough + "/" + small + "/" + medium + "/" + letter
                + "/" + (int) rough % 7 + "/" + -rough % 3f;
    }
}
