package registry;

import java.util.List;
import java.util.OptionalLong;

/** What became of an instruction. */
public sealed interface Outcome {
    /**
     * It was done.
     *
     * @param figure the compliance figure that an assessment determined, in tonnes
     * @param closing what the accounts of the act then held
     */
    record Done(OptionalLong figure, List<Holding> closing) implements Outcome {
        /**
         * Takes a copy of the list.
         *
         * @param figure the compliance figure that an assessment determined, in tonnes
         * @param closing what the accounts of the act then held
         */
        public Done {
            closing = List.copyOf(closing);
        }
    }

    /**
     * It was refused.
     *
     * @param code the code of the first check that failed
     * @param name its name
     */
    record Refused(int code, String name) implements Outcome {
        /**
         * Why this check refuses an instruction.
         *
         * @return a sentence
         */
        public String sentence() {
            return Registry.refusalSentence(code);
        }
    }
}
