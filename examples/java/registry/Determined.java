package registry;

/**
 * A determined compliance figure.
 *
 * @param account the account
 * @param year the year
 * @param figure the figure, in tonnes
 */
public record Determined(int account, int year, long figure) {}
