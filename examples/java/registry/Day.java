package registry;

import java.nio.charset.StandardCharsets;
import java.time.LocalDate;
import java.util.ArrayList;
import java.util.Arrays;
import java.util.Collection;
import java.util.List;
import java.util.Objects;
import java.util.stream.Collectors;

/** A day text, with its questions as typed rows. Each question is a call of the library. */
public final class Day {
    // How a statement ends.
    private static final String END = "\nend\n";

    private final byte[] text;

    /**
     * A day text. It is looked at by the first question.
     *
     * @param text its bytes, which are copied
     */
    public Day(byte[] text) {
        this.text = Objects.requireNonNull(text, "no day text").clone();
    }

    /**
     * A day text with these rules, accounts and instructions. Accounts, and the rows of lists, are written by their rising
     * keys. What is outside a limit is written all the same: a question then throws the first fault.
     *
     * @param rules what stands before the accounts
     * @param accounts the accounts before the day
     * @param instructions what is asked for
     * @return the day
     */
    public static Day of(Rules rules, Collection<Account> accounts, List<Instruction> instructions) {
        return new Day(Writing.day(rules, accounts, instructions));
    }

    /**
     * The text.
     *
     * @return a copy of its bytes
     */
    public byte[] text() {
        return text.clone();
    }

    /**
     * The report of the settled day.
     *
     * @return the report
     * @throws Fault if the bytes are no day text
     */
    public Report settle() throws Fault {
        return new Report(Registry.settle(text));
    }

    /**
     * The log of the day as a trial: why each instruction is done or refused.
     *
     * @return the rows of the log
     * @throws Fault if the bytes are no day text
     */
    public List<LogRow> attempt() throws Fault {
        return Rows.log(Registry.attempt(text));
    }

    /**
     * Which instructions must wait for which others, in the order of the instructions.
     *
     * @return a task for each instruction
     * @throws Fault if the bytes are no day text
     */
    public List<Task> plan() throws Fault {
        return Rows.plan(Registry.plan(text));
    }

    /**
     * The statement of an account. If it is not there: an {@link IllegalArgumentException}.
     *
     * @param account the number of the account
     * @return the statement
     * @throws Fault if the bytes are no day text
     */
    public Statement statement(int account) throws Fault {
        return new Statement(Registry.statement(text, account));
    }

    /**
     * The statements of all accounts, by rising number, after one settlement.
     *
     * @return the statements
     * @throws Fault if the bytes are no day text
     */
    public List<Statement> statements() throws Fault {
        String all = Registry.statements(text);
        List<Statement> statements = new ArrayList<>();
        for (int start = 0; start < all.length(); ) {
            int end = all.indexOf(END, start) + END.length();
            statements.add(new Statement(all.substring(start, end)));
            start = end;
        }
        return statements;
    }

    /**
     * The determined compliance figures of all accounts after the day.
     *
     * @return the figures
     * @throws Fault if the bytes are no day text
     */
    public List<Determined> figures() throws Fault {
        return Rows.figures(Registry.figures(text));
    }

    /**
     * What all accounts together hold, have surrendered and have deleted after the day.
     *
     * @return the totals of each kind of allowance
     * @throws Fault if the bytes are no day text
     */
    public List<Totals> totals() throws Fault {
        return Rows.totals(Registry.totals(text));
    }

    /**
     * The text of the next day up to its instructions. A date that is not later than the day is an
     * {@link IllegalArgumentException}.
     *
     * @param date the next day
     * @return the text, to which instructions and the row {@code end} are added
     * @throws Fault if the bytes are no day text
     */
    public String nextDay(LocalDate date) throws Fault {
        return Registry.nextDay(text, date);
    }

    /**
     * What stands before the accounts.
     *
     * @return the rules
     * @throws Fault if the bytes are no day text
     */
    public Rules rules() throws Fault {
        return Rows.rules(rows().stream().takeWhile(row -> !row[0].equals("account")).toList());
    }

    /**
     * The accounts before the day, by rising number.
     *
     * @return the accounts
     * @throws Fault if the bytes are no day text
     */
    public List<Account> accounts() throws Fault {
        return Rows.accounts(rows());
    }

    /**
     * The instructions, in their order.
     *
     * @return the instructions
     * @throws Fault if the bytes are no day text
     */
    public List<Instruction> instructions() throws Fault {
        return rows().stream().filter(row -> row[0].equals("do"))
                .map(row -> Rows.instruction(Arrays.copyOfRange(row, 1, row.length))).toList();
    }

    // The text without quotes, empty lines and a byte order mark.
    byte[] plain() throws Fault {
        String all = rows().stream().map(row -> String.join(",", row) + "\n").collect(Collectors.joining());
        return all.getBytes(StandardCharsets.US_ASCII);
    }

    // The rows of the text, which the library has looked at.
    private List<String[]> rows() throws Fault {
        Registry.plan(text);
        return DayRows.of(text);
    }
}
