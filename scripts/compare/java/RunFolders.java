package library;

import java.io.IOException;
import java.nio.charset.StandardCharsets;
import java.nio.file.Files;
import java.nio.file.Path;
import java.nio.file.Paths;
import java.util.ArrayList;
import java.util.List;
import java.util.Random;

/**
 * {@code RunFolders WORK SEED}: plays with each folder of WORK/in in a class loader of its own. Writes the actions that the library took to
 * WORK/script, and the events that they led to to WORK/wanted, in the formats of {@code pea run}, without counts.
 */
public final class RunFolders {
    private RunFolders() {}

    public static void main(String[] words) throws IOException, ReflectiveOperationException {
        Path work = Paths.get(words[0]);
        long seed = Long.parseLong(words[1]);
        List<Path> folders = new ArrayList<>();
        Files.list(work.resolve("in")).sorted().forEach(folders::add);
        for (Path folder : folders) {
            String name = folder.getFileName().toString();
            Player player = new Player(new Loader(folder), classesOf(folder), new Random(seed * 1_000_003 + name.hashCode()));
            Recorder.player = player;
            player.play();
            Recorder.player = null;
            write(work.resolve("script").resolve(name), player.script());
            write(work.resolve("wanted").resolve(name), player.events());
        }
    }

    private static List<String> classesOf(Path folder) throws IOException {
        List<String> names = new ArrayList<>();
        Files.walk(folder).filter(file -> file.toString().endsWith(".class")).sorted().forEach(file -> {
            String path = folder.relativize(file).toString();
            names.add(path.substring(0, path.length() - ".class".length()).replace('/', '.'));
        });
        return names;
    }

    private static void write(Path file, List<String> lines) throws IOException {
        Files.write(file, (String.join("\n", lines) + "\n").getBytes(StandardCharsets.ISO_8859_1));
    }

    /** Loads the classes of one folder, and the library's from the class path. */
    private static final class Loader extends ClassLoader {
        private final Path folder;

        Loader(Path folder) {
            super(RunFolders.class.getClassLoader());
            this.folder = folder;
        }

        @Override
        protected Class<?> findClass(String name) throws ClassNotFoundException {
            try {
                byte[] bytes = Files.readAllBytes(folder.resolve(name.replace('.', '/') + ".class"));
                return defineClass(name, bytes, 0, bytes.length);
            } catch (IOException absent) {
                throw new ClassNotFoundException(name, absent);
            }
        }
    }
}
