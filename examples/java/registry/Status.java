package registry;

/** The status of an account. */
public enum Status {
    /** It may do all that its kind may do. */
    OPEN("open"),
    /** It gives no allowances away. */
    BLOCKED("blocked"),
    /** It takes no part in compliance. */
    EXCLUDED("excluded"),
    /** It stays as it is. */
    CLOSED("closed");

    private final String word;

    Status(String word) {
        this.word = word;
    }

    /**
     * Its word in the texts.
     *
     * @return the word
     */
    public String word() {
        return word;
    }

    static Status of(String word) {
        for (Status each : values()) {
            if (each.word.equals(word)) {
                return each;
            }
        }
        throw new IllegalArgumentException("no Status has the word " + word);
    }
}
