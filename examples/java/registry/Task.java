package registry;

import java.util.List;

/**
 * The place of an instruction in the plan.
 *
 * @param place its place among the instructions, counted from 1
 * @param level its level: it waits for some of lower levels
 * @param waitsFor for which it waits
 */
public record Task(int place, int level, List<Wait> waitsFor) {
    /**
     * Takes a copy of the list.
     *
     * @param place its place among the instructions, counted from 1
     * @param level its level: it waits for some of lower levels
     * @param waitsFor for which it waits
     */
    public Task {
        waitsFor = List.copyOf(waitsFor);
    }

    /**
     * An instruction for which another one waits.
     *
     * @param place its place
     * @param account the account that both touch
     */
    public record Wait(int place, int account) {}
}
