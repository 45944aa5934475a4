package registry;

import java.util.List;

/**
 * The report of a settled day.
 *
 * @param text the whole text, byte for byte as the program writes it
 */
public record Report(String text) {
    /**
     * What became of each instruction.
     *
     * @return the rows of the log
     */
    public List<LogRow> log() {
        return Rows.log(text);
    }

    /**
     * The next record number after the day.
     *
     * @return the number
     */
    public long nextRecord() {
        String row = text.lines().filter(each -> each.startsWith("book,")).findFirst().orElseThrow();
        return Long.parseLong(row.substring("book,".length()));
    }

    /**
     * The accounts after the day, by rising number, each with its lists.
     *
     * @return the accounts
     */
    public List<Account> accounts() {
        return Rows.accounts(Rows.written(text));
    }

    /**
     * What all accounts together hold, have surrendered and have deleted after the day.
     *
     * @return the totals of each kind of allowance
     */
    public List<Totals> totals() {
        return Rows.totals(text);
    }
}
