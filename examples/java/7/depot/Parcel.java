package depot;

import java.util.Arrays;
import java.util.Objects;

/** Final fields, a static nested builder, varargs, and a natural order with its bridge method. */
public final class Parcel implements Comparable<Parcel> {
    private final String code;
    private final Zone zone;
    private final int grams;
    private final long valueInCents;
    private final String[] marks;

    private Parcel(Builder builder) {
        this.code = builder.code;
        this.zone = builder.zone;
        this.grams = builder.grams;
        this.valueInCents = builder.valueInCents;
        this.marks = builder.marks.clone();
    }

    public static Builder coded(String code) {
        return new Builder(code);
    }

    public String code() {
        return code;
    }

    public Zone zone() {
        return zone;
    }

    public int grams() {
        return grams;
    }

    public long valueInCents() {
        return valueInCents;
    }

    public boolean isMarked(String mark) {
        for (String own : marks) {
            if (own.equals(mark)) {
                return true;
            }
        }
        return false;
    }

    @Override
    public int compareTo(Parcel other) {
        int byZone = zone.compareTo(other.zone);
        if (byZone != 0) {
            return byZone;
        }
        return grams != other.grams ? (grams < other.grams ? -1 : 1) : code.compareTo(other.code);
    }

    @Override
    public boolean equals(Object other) {
        if (this == other) {
            return true;
        }
        if (!(other instanceof Parcel)) {
            return false;
        }
        Parcel parcel = (Parcel) other;
        return code.equals(parcel.code)
                && zone == parcel.zone
                && grams == parcel.grams
                && valueInCents == parcel.valueInCents
                && Arrays.equals(marks, parcel.marks);
    }

    @Override
    public int hashCode() {
        int hash = code.hashCode();
        hash = 31 * hash + zone.hashCode();
        hash = 31 * hash + grams;
        return 31 * hash + (int) (valueInCents ^ (valueInCents >>> 32));
    }

    @Override
    public String toString() {
        return code + " to " + zone + ", " + grams + " g";
    }

    /** A static nested class whose methods chain, and which reaches a private constructor. */
    public static final class Builder {
        private static final String[] NO_MARKS = {};

        private final String code;
        private Zone zone = Zone.TOWN;
        private int grams;
        private long valueInCents;
        private String[] marks = NO_MARKS;

        private Builder(String code) {
            this.code = Objects.requireNonNull(code, "code");
        }

        public Builder to(Zone zone) {
            this.zone = zone;
            return this;
        }

        public Builder weighing(int grams) {
            if (grams < 0) {
                throw new IllegalArgumentException("negative weight: " + grams);
            }
            this.grams = grams;
            return this;
        }

        public Builder worth(long cents) {
            this.valueInCents = cents;
            return this;
        }

        public Builder marked(String... marks) {
            this.marks = marks;
            return this;
        }

        public Parcel build() {
            return new Parcel(this);
        }
    }
}
