package depot;

/** An enum whose constants have bodies, with an abstract method and a switch over itself. */
public enum Zone {
    TOWN("T", 1) {
        @Override
        long surcharge(int grams) {
            return 0;
        }
    },
    COUNTRY("C", 3) {
        @Override
        long surcharge(int grams) {
            return grams > HEAVY_GRAMS ? 250 : 90;
        }
    },
    ISLAND("I", 5) {
        private final long ferry = 400L;

        @Override
        long surcharge(int grams) {
            return ferry + grams / 100;
        }

        @Override
        public boolean crossesWater() {
            return true;
        }
    },
    ABROAD("A", 9) {
        @Override
        long surcharge(int grams) {
            long kilograms = (grams + 999L) / 1000L;
            return 900L + 350L * kilograms;
        }

        @Override
        public boolean crossesWater() {
            return true;
        }
    };

    private static final int HEAVY_GRAMS = 5000;

    private final String letter;
    private final int days;

    Zone(String letter, int days) {
        this.letter = letter;
        this.days = days;
    }

    abstract long surcharge(int grams);

    public boolean crossesWater() {
        return false;
    }

    public int days() {
        return days;
    }

    /** The zone of a letter, or null. */
    public static Zone of(char letter) {
        for (Zone zone : values()) {
            if (zone.letter.charAt(0) == letter) {
                return zone;
            }
        }
        return null;
    }

    public static String carrier(Zone zone) {
        switch (zone) {
            case TOWN:
                return "bicycle";
            case COUNTRY:
                return "van";
            case ISLAND:
            case ABROAD:
                return zone.crossesWater() ? "ferry" : "lorry";
            default:
                throw new AssertionError(zone);
        }
    }
}
