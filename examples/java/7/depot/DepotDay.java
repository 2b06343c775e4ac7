package depot;

import java.util.ArrayList;
import java.util.Arrays;
import java.util.Collections;
import java.util.List;
import java.util.TreeMap;

/** The program: a day in the depot, which uses every class of the package and prints what it finds. */
public final class DepotDay {
    private DepotDay() {}

    public static void main(String... arguments) throws Exception {
        List<Parcel> parcels = parcels();
        prices(parcels);
        books(parcels);
        floor();
        commands("2 3 add 4 multiply", "7 0 divide", "1 swap", "Aa BB subtract", "12 copy multiply", "five");
        spools();
        numbers();
        print("sum over threads", Conveyor.sumOverThreads(1000), Conveyor.made() > 0);
        for (String line : Inspection.found()) {
            print(line);
        }
    }

    private static void print(Object... parts) {
        System.out.println(Label.words(parts));
    }

    private static List<Parcel> parcels() {
        List<Parcel> parcels = new ArrayList<>();
        parcels.add(Parcel.coded("AB12").to(Zone.ISLAND).weighing(1250).worth(99_95L).marked("fragile", "up").build());
        parcels.add(Parcel.coded("ZZ00").weighing(49).build());
        parcels.add(Parcel.coded("QX7").to(Zone.of('A')).weighing(31_500).worth(1L << 33).build());
        parcels.add(Parcel.coded("LM3").to(Zone.COUNTRY).weighing(5001).worth(-5).marked().build());
        Collections.sort(parcels);
        return parcels;
    }

    private static void prices(List<Parcel> parcels) {
        for (Parcel parcel : parcels) {
            long price = Tariff.price(parcel);
            print(parcel, Zone.carrier(parcel.zone()), parcel.zone().days(), price, Tariff.withTax(price));
            print(new Label(parcel).text(), Label.isChecked(parcel.code()), Tariff.insurance(parcel.valueInCents()));
        }
        print(Tariff.bulk(199, 99), Tariff.bulk(199, 100), Tariff.clock(-200_000L), Tariff.compound(100.0, 0.06, 37));
        print(Tariff.compare(1, 2), Tariff.compare(0.0, -0.0), Tariff.compare(Double.NaN, 1));
        print(Tariff.nearly(1f, 1.01f, 0.02f), Tariff.nearly(1f, 1.03f, 0.02f));
        print(Tariff.narrowed(70_000.75), Tariff.narrowed(-1e20));
    }

    private static void books(List<Parcel> parcels) {
        Ledger<Zone, String> ledger = new Ledger<>();
        for (Parcel parcel : parcels) {
            ledger.enter(parcel.zone(), parcel.code());
        }
        ledger.enterAll(Zone.COUNTRY, Arrays.asList("late", "later"));
        for (Ledger.Entry<Zone, String> entry : ledger) {
            print(entry, entry.with(entry.value.length()));
        }
        TreeMap<Zone, Object> copy = new TreeMap<>(Collections.reverseOrder());
        ledger.copyTo(copy);
        print(ledger.busiest(), copy, Ledger.greatest(parcels, null), parcels.get(0).equals(parcels.get(1)));
    }

    private static void floor() {
        FloorPlan plan = new FloorPlan("..#...", ".##...", "......", "#.##.#", "......");
        print("way", plan.shortestWay(), "square", Arrays.toString(plan.freeSquare(2)));
        long[][][] shelves = FloorPlan.shelves(2, 3, 4);
        print("last shelf", shelves[1][2][0], "of each", FloorPlan.oneOfEach());
        double[][] turn = {{0.0, -1.0}, {1.0, 0.0}};
        print(Arrays.deepToString(FloorPlan.product(turn, turn)));
        Routes.Node tree = Routes.over("quay", "gate", "yard", "rail", "road");
        print(Routes.stops(tree), Routes.depth(tree), Routes.ways(100, 1, 5, 10, 50), Routes.isEven(11));
        print(Routes.greatestDivisor(1071, -462), Routes.ackermann(2, 3), Label.isPalindrome("Never odd or even"));
    }

    private static void commands(String... lines) {
        for (String line : lines) {
            try {
                print(line, "gives", new Commands().run(line));
            } catch (Commands.BadCommand problem) {
                print(problem.getMessage(), problem.at(), problem.word(), problem.getCause().getClass().getName());
            }
        }
        print(Commands.dayName(3), Commands.dayName(7), Commands.dayName(0));
        print(Commands.postage(7), Commands.postage(-1_000_000), Commands.isVowel('e'), Commands.isVowel('y'));
    }

    private static void spools() throws Exception {
        Spool spool = new Spool();
        print(spool.print("hello", false, false), spool.print("again", true, true), spool.print("stuck", false, true));
        print(spool.events(), spool.open(), spool.nested(7), spool.nested(-1), Spool.swallowed(0), Spool.swallowed(7));
        print(Spool.lines("one\ntwo\nthree"), Spool.cause(new Runnable() {
            @Override
            public void run() {
                throw new RuntimeException(new ArrayStoreException());
            }
        }));
    }

    private static void numbers() {
        byte[] bytes = "The quick brown fox".getBytes();
        print(Label.hex(Checksums.crc32(bytes)), Checksums.fletcher16(bytes), Checksums.base32(bytes));
        byte[] written = new byte[10];
        int end = Checksums.writeNumber(-3L, written, 0);
        print(end, Checksums.readNumber(written, 0), Checksums.shifted("depot day", 3), Checksums.parity(0x7FL));
        print(Checksums.interleave(0xFFFF, -1), Checksums.rotated(0x80000001, 4));
    }
}
