package registry;

/**
 * What an account receives of a distribution.
 *
 * @param to the number of the account
 * @param amount how many allowances, without a sign
 */
public record Share(int to, long amount) {}
