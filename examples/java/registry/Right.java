package registry;

/** What a representative may do for an account. */
public enum Right {
    /** Propose. */
    PROPOSE("propose"),
    /** Approve what somebody else has proposed. */
    APPROVE("approve"),
    /** Both. */
    BOTH("both");

    private final String word;

    Right(String word) {
        this.word = word;
    }

    /**
     * Its word in the texts.
     *
     * @return the word
     */
    public String word() {
        return word;
    }

    static Right of(String word) {
        for (Right each : values()) {
            if (each.word.equals(word)) {
                return each;
            }
        }
        throw new IllegalArgumentException("no Right has the word " + word);
    }
}
