package registry;

import java.time.LocalDate;
import java.util.Collections;
import java.util.List;
import java.util.Map;
import java.util.SortedMap;
import java.util.TreeMap;

/**
 * An account with its lists. Amounts are allowances; corrections, emissions and figures are tonnes. The maps and lists
 * cannot be changed.
 *
 * @param number its number
 * @param kind its kind
 * @param holder the number of its holder
 * @param status its status
 * @param allowsOutside whether it allows transfers outside its trusted list
 * @param hasWaiver whether a transfer to a trusted account needs no approval
 * @param general the general allowances that it holds
 * @param aviation the aviation allowances that it holds
 * @param corrections its correction factors by period; a period that is not there has the factor 0
 * @param users the right of each representative
 * @param trusted its trusted list: the day on which each entry takes effect
 * @param retired what it has surrendered and deleted, by rising record number
 * @param emissions its verified emissions by year
 * @param figures its compliance figures, as they were last determined, by year
 */
public record Account(
        int number,
        AccountKind kind,
        int holder,
        Status status,
        boolean allowsOutside,
        boolean hasWaiver,
        long general,
        long aviation,
        SortedMap<Integer, Long> corrections,
        SortedMap<Integer, Right> users,
        SortedMap<Integer, LocalDate> trusted,
        List<Retired> retired,
        SortedMap<Integer, Long> emissions,
        SortedMap<Integer, Long> figures) {

    /**
     * Takes copies of the maps and of the list.
     *
     * @param number its number
     * @param kind its kind
     * @param holder the number of its holder
     * @param status its status
     * @param allowsOutside whether it allows transfers outside its trusted list
     * @param hasWaiver whether a transfer to a trusted account needs no approval
     * @param general the general allowances that it holds
     * @param aviation the aviation allowances that it holds
     * @param corrections its correction factors by period; a period that is not there has the factor 0
     * @param users the right of each representative
     * @param trusted its trusted list: the day on which each entry takes effect
     * @param retired what it has surrendered and deleted, by rising record number
     * @param emissions its verified emissions by year
     * @param figures its compliance figures, as they were last determined, by year
     */
    public Account {
        corrections = copyOf(corrections);
        users = copyOf(users);
        trusted = copyOf(trusted);
        retired = List.copyOf(retired);
        emissions = copyOf(emissions);
        figures = copyOf(figures);
    }

    private static <V> SortedMap<Integer, V> copyOf(Map<Integer, V> map) {
        return Collections.unmodifiableSortedMap(new TreeMap<>(map));
    }

    /**
     * An open account that holds this much, with these representatives and no other lists.
     *
     * @param number its number
     * @param kind its kind
     * @param holder the number of its holder
     * @param general the general allowances that it holds
     * @param aviation the aviation allowances that it holds
     * @param users the right of each representative
     * @return the account
     */
    public static Account open(int number, AccountKind kind, int holder, long general, long aviation,
            Map<Integer, Right> users) {
        SortedMap<Integer, Long> none = new TreeMap<>();
        return new Account(number, kind, holder, Status.OPEN, false, false, general, aviation,
                new TreeMap<>(Map.of(1, 0L)), new TreeMap<>(users), new TreeMap<>(), List.of(), none, none);
    }
}
