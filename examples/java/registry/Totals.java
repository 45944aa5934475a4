package registry;

import java.math.BigInteger;

/**
 * What all accounts together hold, have surrendered and have deleted of a kind of allowance. Reversed ones do not count.
 *
 * @param kind the kind of allowance
 * @param held what they hold
 * @param surrendered what they have surrendered
 * @param deleted what they have deleted
 */
public record Totals(Kind kind, BigInteger held, BigInteger surrendered, BigInteger deleted) {}
