package registry;

import java.util.List;

/** What an instruction asks for. Accounts are told by their numbers, and amounts have no sign. */
public sealed interface Act {
    /**
     * The word of the act in the texts.
     *
     * @return the word
     */
    String word();

    /**
     * Allowances go to another account.
     *
     * @param from the account that gives
     * @param to the account that receives
     * @param kind the kind of the allowances
     * @param amount how many
     */
    record Transfer(int from, int to, Kind kind, long amount) implements Act {
        @Override
        public String word() {
            return "transfer";
        }
    }

    /**
     * Allowances that were too many go back.
     *
     * @param from the account that gives
     * @param to the account that receives
     * @param kind the kind of the allowances
     * @param amount how many
     */
    record Return(int from, int to, Kind kind, long amount) implements Act {
        @Override
        public String word() {
            return "return";
        }
    }

    /**
     * An administrator moves allowances between two accounts.
     *
     * @param from the account that gives
     * @param to the account that receives
     * @param kind the kind of the allowances
     * @param amount how many
     */
    record Central(int from, int to, Kind kind, long amount) implements Act {
        @Override
        public String word() {
            return "central";
        }
    }

    /**
     * Allowances are surrendered for emissions.
     *
     * @param from the account that gives
     * @param kind the kind of the allowances
     * @param amount how many
     */
    record Surrender(int from, Kind kind, long amount) implements Act {
        @Override
        public String word() {
            return "surrender";
        }
    }

    /**
     * Allowances are deleted.
     *
     * @param from the account that gives
     * @param kind the kind of the allowances
     * @param amount how many
     */
    record Delete(int from, Kind kind, long amount) implements Act {
        @Override
        public String word() {
            return "delete";
        }
    }

    /**
     * Allowances are created.
     *
     * @param to the account that receives
     * @param kind the kind of the allowances
     * @param amount how many
     */
    record Create(int to, Kind kind, long amount) implements Act {
        @Override
        public String word() {
            return "create";
        }
    }

    /**
     * A surrender or a deletion is reversed.
     *
     * @param account the account
     * @param number the record number of what is reversed
     */
    record Reverse(int account, long number) implements Act {
        @Override
        public String word() {
            return "reverse";
        }
    }

    /**
     * One to eight accounts receive allowances at once.
     *
     * @param from the account that gives
     * @param kind the kind of the allowances
     * @param shares who receives how much
     */
    record Distribute(int from, Kind kind, List<Share> shares) implements Act {
        /**
         * Takes a copy of the list.
         *
         * @param from the account that gives
         * @param kind the kind of the allowances
         * @param shares who receives how much
         */
        public Distribute {
            shares = List.copyOf(shares);
        }

        @Override
        public String word() {
            return "distribute";
        }
    }

    /**
     * An account is put on the trusted list of another one.
     *
     * @param account the account whose list it is
     * @param other the account that is put there
     */
    record Trust(int account, int other) implements Act {
        @Override
        public String word() {
            return "trust";
        }
    }

    /**
     * An account is taken off the trusted list of another one.
     *
     * @param account the account whose list it is
     * @param other the account that is taken off
     */
    record Untrust(int account, int other) implements Act {
        @Override
        public String word() {
            return "untrust";
        }
    }

    /**
     * An account gets another status.
     *
     * @param account the account
     * @param status its new status
     */
    record SetStatus(int account, Status status) implements Act {
        @Override
        public String word() {
            return "status";
        }
    }

    /**
     * The verified emissions of a year are entered.
     *
     * @param account the account
     * @param year the year
     * @param tonnes how much
     */
    record Emissions(int account, int year, long tonnes) implements Act {
        @Override
        public String word() {
            return "emissions";
        }
    }

    /**
     * The compliance figure of a year is determined.
     *
     * @param account the account
     * @param year the year
     */
    record Assess(int account, int year) implements Act {
        @Override
        public String word() {
            return "assess";
        }
    }
}
