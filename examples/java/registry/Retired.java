package registry;

import java.time.LocalDate;
import java.util.OptionalInt;

/**
 * What an account has surrendered or deleted.
 *
 * @param number its record number
 * @param period the period of a surrender, from 1 on; a deletion has none
 * @param kind the kind of its allowances
 * @param amount how many allowances
 * @param day the day on which it was settled
 * @param isReversed whether it was reversed
 */
public record Retired(long number, OptionalInt period, Kind kind, long amount, LocalDate day, boolean isReversed) {}
