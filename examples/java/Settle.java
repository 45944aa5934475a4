import java.io.IOException;
import java.nio.charset.StandardCharsets;
import java.nio.file.Files;
import java.nio.file.InvalidPathException;
import java.nio.file.Path;
import registry.Fault;
import registry.Registry;

/** Settles a day text and prints its report. Exit statuses are those of the program. */
public final class Settle {
    public static void main(String[] words) {
        if (words.length != 1) {
            end(2, "usage: java Settle DAY");
        }
        try {
            write(Registry.settle(read(words[0])));
        } catch (Fault fault) {
            end(3, fault.getMessage());
        } catch (OutOfMemoryError noMemory) {
            end(4, "out of memory");
        }
    }

    private static byte[] read(String path) {
        try {
            return Files.readAllBytes(Path.of(path));
        } catch (IOException | InvalidPathException unread) {
            end(5, "the day text cannot be read");
            throw new AssertionError(unread);
        }
    }

    private static void write(String report) {
        byte[] bytes = report.getBytes(StandardCharsets.US_ASCII);
        // (a PrintStream throws nothing: it has to be asked)
        System.out.write(bytes, 0, bytes.length);
        if (System.out.checkError()) {
            end(5, "the report cannot be written");
        }
    }

    private static void end(int status, String why) {
        System.err.println(why);
        System.exit(status);
    }
}
