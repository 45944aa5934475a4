package registry;

import java.util.List;

/**
 * The statement of an account over a day.
 *
 * @param text the whole text
 */
public record Statement(String text) {
    /**
     * What the account held before the day.
     *
     * @return its holding
     */
    public Holding opening() {
        return holding("opening,");
    }

    /**
     * What the account holds after the day.
     *
     * @return its holding
     */
    public Holding closing() {
        return holding("closing,");
    }

    /**
     * The rows of the log that name the account.
     *
     * @return the rows
     */
    public List<LogRow> log() {
        return Rows.log(text);
    }

    private Holding holding(String tag) {
        String row = text.lines().filter(each -> each.startsWith(tag)).findFirst().orElseThrow();
        return Rows.holding(row.split(","), 1);
    }
}
