package registry;

/** A kind of account, in the order by which the rows {@code surrender} of a text rise. */
public enum AccountKind {
    /** The account of an operator. */
    OPERATOR("operator"),
    /** The account of an aircraft operator. */
    AIRCRAFT("aircraft"),
    /** The account of a trader. */
    TRADING("trading"),
    /** The account from which operators receive allowances. */
    ALLOCATION("allocation"),
    /** The account in which allowances are created. */
    TOTAL("total");

    private final String word;

    AccountKind(String word) {
        this.word = word;
    }

    /**
     * Its word in the texts.
     *
     * @return the word
     */
    public String word() {
        return word;
    }

    static AccountKind of(String word) {
        for (AccountKind each : values()) {
            if (each.word.equals(word)) {
                return each;
            }
        }
        throw new IllegalArgumentException("no AccountKind has the word " + word);
    }
}
