package registry;

import java.io.IOException;
import java.io.InputStream;
import java.nio.file.Files;
import java.nio.file.Path;
import java.util.Locale;

/** The native part: the file on {@code java.library.path}, or else the one that lies in the jar beside this class. */
final class Shim {
    private static final String NAME = "registry_jni";

    private Shim() {}

    static void load() {
        try {
            System.loadLibrary(NAME);
        } catch (UnsatisfiedLinkError notOnThePath) {
            loadFromJar(notOnThePath);
        }
    }

    // The system reads a native library from a file alone. The file goes once it is loaded.
    private static void loadFromJar(UnsatisfiedLinkError notOnThePath) {
        String file = System.mapLibraryName(NAME);
        try (InputStream own = Shim.class.getResourceAsStream(platform() + "/" + file)) {
            if (own == null) {
                throw notOnThePath;
            }
            Path folder = Files.createTempDirectory("registry");
            Path copy = folder.resolve(file);
            try {
                Files.copy(own, copy);
                System.load(copy.toString());
            } finally {
                Files.deleteIfExists(copy);
                Files.delete(folder);
            }
        } catch (IOException fault) {
            UnsatisfiedLinkError none = new UnsatisfiedLinkError(file + " of the jar cannot be loaded: " + fault);
            none.initCause(fault);
            throw none;
        }
    }

    // Such as linux-amd64: the folder in which the jar has the file.
    private static String platform() {
        return System.getProperty("os.name").toLowerCase(Locale.ROOT) + "-" + System.getProperty("os.arch");
    }
}
