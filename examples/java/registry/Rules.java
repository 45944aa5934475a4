package registry;

import java.time.LocalDate;
import java.util.List;

/**
 * The rows before the accounts of a day text. A lag is a number of working days.
 *
 * @param version the version of the text, 1 or 2; a text in version 1 has one period
 * @param day the settlement day
 * @param nextRecord the record number of its first instruction
 * @param periods the periods, from period 1 on
 * @param current the current period
 * @param trustedLag the lag of transfers to trusted accounts
 * @param otherLag the lag of all other transfers
 * @param listLag how long it takes until an entry of a trusted list is in effect
 * @param reversalWindow how long a surrender or a deletion may be reversed
 * @param surrender from which kinds of accounts which kinds of allowances may be surrendered
 * @param admins the administrators
 * @param workingDays the working days
 */
public record Rules(
        int version,
        LocalDate day,
        long nextRecord,
        List<Period> periods,
        int current,
        int trustedLag,
        int otherLag,
        int listLag,
        int reversalWindow,
        List<Surrendering> surrender,
        List<Integer> admins,
        List<LocalDate> workingDays) {

    /**
     * Takes copies of the lists.
     *
     * @param version the version of the text, 1 or 2; a text in version 1 has one period
     * @param day the settlement day
     * @param nextRecord the record number of its first instruction
     * @param periods the periods, from period 1 on
     * @param current the current period
     * @param trustedLag the lag of transfers to trusted accounts
     * @param otherLag the lag of all other transfers
     * @param listLag how long it takes until an entry of a trusted list is in effect
     * @param reversalWindow how long a surrender or a deletion may be reversed
     * @param surrender from which kinds of accounts which kinds of allowances may be surrendered
     * @param admins the administrators
     * @param workingDays the working days
     */
    public Rules {
        periods = List.copyOf(periods);
        surrender = List.copyOf(surrender);
        admins = List.copyOf(admins);
        workingDays = List.copyOf(workingDays);
    }

    /**
     * Allowances of this kind may be surrendered from accounts of that kind.
     *
     * @param account the kind of the accounts
     * @param kind the kind of the allowances
     */
    public record Surrendering(AccountKind account, Kind kind) {}
}
