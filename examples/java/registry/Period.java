package registry;

/**
 * The years of a period.
 *
 * @param first its first year
 * @param last its last year
 */
public record Period(int first, int last) {}
