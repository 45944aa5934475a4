package registry;

import java.time.LocalDate;

/**
 * A row of the log.
 *
 * @param number the record number of the instruction
 * @param day the settlement day
 * @param instruction the instruction
 * @param outcome what became of it
 */
public record LogRow(long number, LocalDate day, Instruction instruction, Outcome outcome) {
    /**
     * Whether the instruction was done.
     *
     * @return whether it was
     */
    public boolean isDone() {
        return outcome instanceof Outcome.Done;
    }
}
