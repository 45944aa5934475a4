import java.io.BufferedInputStream;
import java.io.BufferedOutputStream;
import java.io.DataInputStream;
import java.io.IOException;
import java.io.OutputStream;
import java.nio.charset.StandardCharsets;
import java.util.ArrayList;
import java.util.List;
import registry.Day;
import registry.Fault;
import registry.Instruction;
import registry.LogRow;
import registry.Session;

/** Writes texts again in Java, as examples/rust/examples/again.rs does in Rust. */
public final class Again {
    public static void main(String[] words) throws IOException {
        DataInputStream input = new DataInputStream(new BufferedInputStream(System.in));
        try (OutputStream output = new BufferedOutputStream(System.out)) {
            for (int length = length(input); length >= 0; length = length(input)) {
                byte[] text = input.readNBytes(length);
                output.write(answer(text));
            }
        }
    }

    // The number in the next line; -1 behind the last one.
    private static int length(DataInputStream input) throws IOException {
        int length = -1;
        for (int next = input.read(); next > '\n'; next = input.read()) {
            length = Math.max(length, 0) * 10 + next - '0';
        }
        return length;
    }

    // The text that its typed rows make, in a session that takes the instructions one at a time.
    private static byte[] again(Day day) throws Fault {
        try (Session session = new Session(Day.of(day.rules(), day.accounts(), List.of()).text())) {
            List<LogRow> log = new ArrayList<>();
            for (Instruction asked : day.instructions()) {
                log.add(session.apply(asked));
            }
            if (!log.equals(day.attempt()) || !session.report().equals(day.settle())) {
                throw new IllegalStateException("one at a time gives something else");
            }
            return session.day().text();
        }
    }

    private static byte[] answer(byte[] text) {
        Day day = new Day(text);
        try {
            byte[] again = again(day);
            return (again.length + "\n" + new String(again, StandardCharsets.US_ASCII))
                    .getBytes(StandardCharsets.US_ASCII);
        } catch (Fault fault) {
            return (fault.getMessage() + " " + fault.field() + " " + fault.fieldName() + " " + fault.sentence() + "\n")
                    .getBytes(StandardCharsets.US_ASCII);
        }
    }
}
