package registry;

import java.nio.charset.StandardCharsets;
import java.util.Arrays;
import java.util.List;

/**
 * A day whose instructions come one at a time: each is answered as it comes, and the day is asked in between. It keeps the
 * day text with the instructions so far. By the proof the last row of its log is what applying the last instruction to the
 * book gives. So each instruction takes the time of a trial of the whole text. One thread at a time calls a session.
 */
public final class Session implements AutoCloseable {
    private static final byte[] END = "end\n".getBytes(StandardCharsets.US_ASCII);

    // The day text with the instructions so far; {@code null} if the session is closed.
    private byte[] text;

    /**
     * Opens the day that these bytes describe, with the instructions that they have.
     *
     * @param day a day text
     * @throws Fault if the bytes are no day text
     */
    public Session(byte[] day) throws Fault {
        text = new Day(day).plain();
    }

    /**
     * Adds an instruction behind those so far, and answers what becomes of it. If it throws, the day is as before.
     *
     * @param instruction what is asked for
     * @return its row of the log
     * @throws Fault if something is outside a limit, with its row in the text of the day
     */
    public LogRow apply(Instruction instruction) throws Fault {
        byte[] row = Writing.row(instruction);
        byte[] longer = Arrays.copyOf(open(), text.length + row.length);
        System.arraycopy(row, 0, longer, text.length - END.length, row.length);
        System.arraycopy(END, 0, longer, longer.length - END.length, END.length);
        List<LogRow> log = new Day(longer).attempt();
        text = longer;
        return log.get(log.size() - 1);
    }

    /**
     * The day with the instructions so far, and all of its questions.
     *
     * @return the day
     */
    public Day day() {
        return new Day(open());
    }

    /**
     * The report of the day with the instructions so far.
     *
     * @return the report
     * @throws Fault never, since each instruction was looked at
     */
    public Report report() throws Fault {
        return day().settle();
    }

    /** Lets the day go. Each later call throws an {@link IllegalStateException}, except this one, which does nothing again. */
    @Override
    public void close() {
        text = null;
    }

    private byte[] open() {
        if (text == null) {
            throw new IllegalStateException("this session is closed");
        }
        return text;
    }
}
