package registry;

/**
 * What an account holds, in allowances.
 *
 * @param account the number of the account
 * @param general general allowances
 * @param aviation aviation allowances
 */
public record Holding(int account, long general, long aviation) {}
