import java.io.ByteArrayInputStream;
import java.io.DataInputStream;
import java.io.IOException;
import java.nio.file.Files;
import java.nio.file.Path;
import java.util.ArrayList;
import java.util.List;
import java.util.Random;
import java.util.stream.Stream;

/**
 * Damages class files and asks the JVM's verifier. {@code Damage IN OUT COUNT} takes COUNT methods with code of the class files
 * below IN, spread over all of them, and writes for each the folder OUT/N with the class files of IN, in which one byte of the
 * method's code or stack map frames is another. It prints for each N a line: the class file, the place of the byte, what it was
 * and is, and whether the JVM links the class ({@code yes}) or why it does not.
 */
final class Damage {
    /** The bytes of a code or of the content of a StackMapTable: a class file and a range of places in it. */
    private record Range(Path file, int start, int end) {}

    public static void main(String[] words) throws IOException {
        Path in = Path.of(words[0]);
        Path out = Path.of(words[1]);
        int count = Integer.parseInt(words[2]);
        List<Range> ranges = new ArrayList<>();
        for (Path file : classFiles(in)) {
            addRanges(ranges, in.relativize(file), Files.readAllBytes(file));
        }
        Random random = new Random(1);
        for (int number = 0; number < count; number++) {
            Range range = ranges.get((int) ((long) number * ranges.size() / count));
            damage(in, out.resolve(Integer.toString(number)), range, random, number);
        }
    }

    private static List<Path> classFiles(Path folder) throws IOException {
        try (Stream<Path> files = Files.walk(folder)) {
            return files.filter(file -> file.toString().endsWith(".class")).sorted().toList();
        }
    }

    private static void damage(Path in, Path folder, Range range, Random random, int number) throws IOException {
        for (Path file : classFiles(in)) {
            Path copy = folder.resolve(in.relativize(file));
            Files.createDirectories(copy.getParent());
            Files.copy(file, copy);
        }
        Path damaged = folder.resolve(range.file());
        byte[] bytes = Files.readAllBytes(damaged);
        int place = range.start() + random.nextInt(range.end() - range.start());
        byte before = bytes[place];
        while (bytes[place] == before) {
            bytes[place] = (byte) (number % 2 == 0 ? before + 1 + random.nextInt(3) : random.nextInt(256));
        }
        Files.write(damaged, bytes);
        System.out.printf("%d\t%s\t%d\t%02x\t%02x\t%s%n", number, range.file(), place, before, bytes[place], answer(folder, range.file()));
    }

    /** Whether the JVM links the class of a file: reading its methods links it, without running it. */
    private static String answer(Path folder, Path file) {
        try {
            new FolderLoader(folder).link(file);
            return "yes";
        } catch (Throwable thrown) {
            return thrown.getClass().getSimpleName();
        }
    }

    /** Adds the codes of a class file's methods, each behind the frames that it states. */
    private static void addRanges(List<Range> ranges, Path file, byte[] bytes) throws IOException {
        Reader in = new Reader(bytes);
        in.skip(8);
        String[] texts = in.pool();
        in.skip(6);
        in.skip(2 * in.u2());
        for (int left = in.u2(); left > 0; left--) {
            in.skip(6);
            in.skipAttributes();
        }
        for (int left = in.u2(); left > 0; left--) {
            in.skip(6);
            for (int attributes = in.u2(); attributes > 0; attributes--) {
                String name = texts[in.u2()];
                int length = in.u4();
                if ("Code".equals(name)) {
                    addCode(ranges, file, in, texts);
                } else {
                    in.skip(length);
                }
            }
        }
    }

    private static void addCode(List<Range> ranges, Path file, Reader in, String[] texts) throws IOException {
        in.skip(4);
        int length = in.u4();
        Range code = new Range(file, in.place(), in.place() + length);
        in.skip(length);
        in.skip(8 * in.u2());
        for (int attributes = in.u2(); attributes > 0; attributes--) {
            String name = texts[in.u2()];
            int size = in.u4();
            if ("StackMapTable".equals(name)) {
                ranges.add(new Range(file, in.place(), in.place() + size));
            }
            in.skip(size);
        }
        ranges.add(code);
    }

    /** Takes numbers off the bytes of a class file. */
    private static final class Reader {
        private final byte[] bytes;
        private final ByteArrayInputStream stream;
        private final DataInputStream data;

        Reader(byte[] bytes) {
            this.bytes = bytes;
            stream = new ByteArrayInputStream(bytes);
            data = new DataInputStream(stream);
        }

        int place() {
            return bytes.length - stream.available();
        }

        int u2() throws IOException {
            return data.readUnsignedShort();
        }

        int u4() throws IOException {
            return data.readInt();
        }

        void skip(int count) throws IOException {
            data.skipNBytes(count);
        }

        void skipAttributes() throws IOException {
            for (int left = u2(); left > 0; left--) {
                skip(2);
                skip(u4());
            }
        }

        /** The texts of the constant pool by index. */
        String[] pool() throws IOException {
            String[] texts = new String[u2()];
            for (int index = 1; index < texts.length; index++) {
                int tag = data.readUnsignedByte();
                switch (tag) {
                    case 1 -> texts[index] = data.readUTF();
                    case 3, 4, 9, 10, 11, 12, 18 -> skip(4);
                    case 5, 6 -> {
                        skip(8);
                        index++;
                    }
                    case 15 -> skip(3);
                    default -> skip(2);
                }
            }
            return texts;
        }
    }

    private Damage() {}
}
