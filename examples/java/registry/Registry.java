package registry;

import java.nio.charset.StandardCharsets;
import java.time.LocalDate;
import java.time.format.DateTimeFormatter;
import java.util.Objects;

/**
 * The settlement engine. Each call may come from any thread, and several at once. A call without a day text, with
 * {@code null}, throws a {@link NullPointerException}.
 */
public final class Registry {
    // The numbers of the commands, as registry_jni.c knows them.
    private static final int SETTLE = 0;
    private static final int TRY = 1;
    private static final int PLAN = 2;
    private static final int FIGURES = 3;
    private static final int TOTALS = 4;
    private static final int STATEMENTS = 5;
    private static final int STATEMENT = 6;
    private static final int NEXT = 7;

    // How a date is written, and what stands in place of it where none is asked for.
    private static final DateTimeFormatter FORM = DateTimeFormatter.ofPattern("uuuu-MM-dd");
    private static final byte[] NO_DATE = new byte[10];

    // What words are asked for, as registry_jni.c knows it.
    private static final int VERSION_STRING = 0;
    private static final int CAUSE_WORD = 1;
    private static final int REFUSAL_WORD = 2;
    private static final int REFUSAL_SENTENCE = 3;
    private static final int FIELD_NAME = 4;
    private static final int FAULT_SENTENCE = 5;
    // What registry_jni.c tells of a call: status, cause, row, and of a fault its field and the column of this field.
    private static final int TOLD = 5;

    // The statuses of the library.
    private static final long DONE = 0;
    private static final long NO_ACCOUNT = 2;
    private static final long FAULT = 3;
    private static final long NO_NEXT_DATE = 6;

    static {
        Shim.load();
    }

    private Registry() {}

    /**
     * The report of the day that these bytes describe.
     *
     * @param day a day text
     * @return the text of the report
     * @throws Fault if the bytes are no day text
     */
    public static String settle(byte[] day) throws Fault {
        return ask(SETTLE, day, 0);
    }

    /**
     * How many bytes the report of a day text of this length has at most: eight times as many, or {@code Long.MAX_VALUE}
     * if that is more. It was proved.
     *
     * @param dayLength the length of a day text, in bytes
     * @return the most bytes of its report
     */
    public static long reportMost(long dayLength) {
        if (dayLength < 0) {
            throw new IllegalArgumentException("there is no text of " + dayLength + " bytes");
        }
        return most(dayLength);
    }

    /**
     * The log of the day alone: why each instruction is done or refused.
     *
     * @param day a day text
     * @return the rows of the log
     * @throws Fault if the bytes are no day text
     */
    public static String attempt(byte[] day) throws Fault {
        return ask(TRY, day, 0);
    }

    /**
     * Which instructions of the day must wait for which others.
     *
     * @param day a day text
     * @return the text of the plan
     * @throws Fault if the bytes are no day text
     */
    public static String plan(byte[] day) throws Fault {
        return ask(PLAN, day, 0);
    }

    /**
     * The determined compliance figures after the day.
     *
     * @param day a day text
     * @return their text
     * @throws Fault if the bytes are no day text
     */
    public static String figures(byte[] day) throws Fault {
        return ask(FIGURES, day, 0);
    }

    /**
     * The totals after the day.
     *
     * @param day a day text
     * @return their text
     * @throws Fault if the bytes are no day text
     */
    public static String totals(byte[] day) throws Fault {
        return ask(TOTALS, day, 0);
    }

    /**
     * The statement of an account over the day. If it is not there: an {@link IllegalArgumentException}.
     *
     * @param day a day text
     * @param account the number of the account
     * @return the text of the statement
     * @throws Fault if the bytes are no day text
     */
    public static String statement(byte[] day, int account) throws Fault {
        return ask(STATEMENT, day, account);
    }

    /**
     * The statements of all accounts, by rising number, one behind another, after one settlement. Each ends with its row
     * {@code end}.
     *
     * @param day a day text
     * @return the texts
     * @throws Fault if the bytes are no day text
     */
    public static String statements(byte[] day) throws Fault {
        return ask(STATEMENTS, day, 0);
    }

    /**
     * The text of the next day up to its instructions: its {@code do} rows, if it has some, and the row {@code end} go
     * behind it. A date that is not later than the day is an {@link IllegalArgumentException}.
     *
     * @param day a day text
     * @param date the next day
     * @return the text
     * @throws Fault if the bytes are no day text
     */
    public static String nextDay(byte[] day, LocalDate date) throws Fault {
        byte[] written = date.format(FORM).getBytes(StandardCharsets.US_ASCII);
        // (a year of more than four digits is none of a day text)
        return ask(NEXT, day, 0, written.length == NO_DATE.length ? written : NO_DATE);
    }

    /**
     * The version of the engine, such as {@code 1.2}.
     *
     * @return the version
     */
    public static String version() {
        return words(VERSION_STRING, 0, 0);
    }

    /**
     * The name of the check with this code, as a log has it. Another code has the empty text.
     *
     * @param code the code of a check
     * @return its name
     */
    public static String refusalWord(int code) {
        return words(REFUSAL_WORD, code, 0);
    }

    /**
     * Why the check with this code refuses an instruction, in a sentence. Another code has the empty text.
     *
     * @param code the code of a check
     * @return a sentence
     */
    public static String refusalSentence(int code) {
        return words(REFUSAL_SENTENCE, code, 0);
    }

    static String causeWord(int cause) {
        return words(CAUSE_WORD, cause, 0);
    }

    static String fieldName(int column) {
        return words(FIELD_NAME, column, 0);
    }

    static String faultSentence(Cause cause, int column) {
        return words(FAULT_SENTENCE, cause.ordinal() + 1, column);
    }

    private static String ask(int command, byte[] day, int account) throws Fault {
        return ask(command, day, account, NO_DATE);
    }

    private static String ask(int command, byte[] day, int account, byte[] date) throws Fault {
        // (the native method reads whatever it is given)
        Objects.requireNonNull(day, "no day text");
        long[] told = new long[TOLD];
        byte[] text = call(command, day, account, date, told);
        if (told[0] == DONE) {
            return new String(text, StandardCharsets.US_ASCII);
        }
        if (told[0] == FAULT) {
            throw new Fault(told[2], Cause.values()[(int) told[1] - 1], (int) told[3], (int) told[4]);
        }
        if (told[0] == NO_ACCOUNT) {
            throw new IllegalArgumentException("no such account: " + Integer.toUnsignedString(account));
        }
        if (told[0] == NO_NEXT_DATE) {
            throw new IllegalArgumentException("the next day is later than the day, and a date of a day text");
        }
        throw new OutOfMemoryError("the registry library ran out of memory");
    }

    private static native long most(long dayLength);

    private static native String words(int which, int number, int column);

    // Fills `told`, and answers the text if there is one.
    private static native byte[] call(int command, byte[] day, int account, byte[] date, long[] told);
}
