package registry;

/** What is wrong with the first faulty row, in the order of the library's numbers. */
public enum Cause {
    /** The text ends although a row must follow, or a row follows the row {@code end}. */
    END,
    /** The tag is unknown or not allowed here. */
    TAG,
    /** The number of fields is wrong. */
    FIELDS,
    /** A field is not a number in its one spelling. */
    NUMBER,
    /** A field is not a date. */
    DATE,
    /** A field is not one of the words allowed here. */
    WORD,
    /** The version of the format is neither 1 nor 2. */
    VERSION,
    /** Something is outside its limits. */
    LIMIT,
    /** A row is out of order in its list, or a period ends before it begins. */
    ORDER;

    /**
     * What is wrong with a row by this cause, whatever its field.
     *
     * @return a sentence
     */
    public String sentence() {
        return Registry.faultSentence(this, 0);
    }

    /** The word of the cause, as the program writes it. */
    @Override
    public String toString() {
        return Registry.causeWord(ordinal() + 1);
    }
}
