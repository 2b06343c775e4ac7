import java.io.IOException;
import java.nio.file.Files;
import java.nio.file.Path;

/** Loads the classes of a folder itself, and all others as the JVM does. */
final class FolderLoader extends ClassLoader {
    private final Path folder;

    FolderLoader(Path folder) {
        super(ClassLoader.getPlatformClassLoader());
        this.folder = folder;
    }

    /** Loads and links, and so verifies, the class of a file whose path is relative to the folder, without running it. */
    void link(Path file) throws ClassNotFoundException {
        String path = file.toString();
        String name = path.substring(0, path.length() - ".class".length()).replace('/', '.');
        loadClass(name).getDeclaredMethods();
    }

    @Override
    protected Class<?> findClass(String name) throws ClassNotFoundException {
        try {
            byte[] bytes = Files.readAllBytes(folder.resolve(name.replace('.', '/') + ".class"));
            return defineClass(name, bytes, 0, bytes.length);
        } catch (IOException absent) {
            throw new ClassNotFoundException(name, absent);
        }
    }
}
