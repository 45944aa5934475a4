package registry;

/** A kind of allowance. */
public enum Kind {
    /** A general allowance. */
    GENERAL("general"),
    /** An aviation allowance. */
    AVIATION("aviation");

    private final String word;

    Kind(String word) {
        this.word = word;
    }

    /**
     * Its word in the texts.
     *
     * @return the word
     */
    public String word() {
        return word;
    }

    static Kind of(String word) {
        for (Kind each : values()) {
            if (each.word.equals(word)) {
                return each;
            }
        }
        throw new IllegalArgumentException("no Kind has the word " + word);
    }
}
