import java.io.IOException;
import java.nio.file.Files;
import java.nio.file.Path;
import java.util.List;
import java.util.stream.Stream;

/** {@code LoadClasses FOLDER}: loads and links, and so verifies, each class of the folder, without running it. */
final class LoadClasses {
    private LoadClasses() {}

    public static void main(String[] words) throws IOException, ClassNotFoundException {
        Path folder = Path.of(words[0]);
        FolderLoader loader = new FolderLoader(folder);
        List<Path> files;
        try (Stream<Path> walk = Files.walk(folder)) {
            files = walk.filter(file -> file.toString().endsWith(".class")).toList();
        }
        for (Path file : files) {
            loader.link(folder.relativize(file));
        }
    }
}
