package registry;

import java.time.LocalDate;
import java.util.OptionalInt;

/**
 * What somebody asked for.
 *
 * @param proposed the day on which it was proposed
 * @param proposer the user who proposed it
 * @param approver the user who approved it, if somebody did
 * @param act what it asks for
 */
public record Instruction(LocalDate proposed, int proposer, OptionalInt approver, Act act) {}
