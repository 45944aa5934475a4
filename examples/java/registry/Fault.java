package registry;

/** The bytes are no day text. */
public final class Fault extends Exception {
    private static final long serialVersionUID = 2;

    /** The number of the first faulty row. */
    private final long row;
    /** The first cause that applies to it. */
    private final Cause cause;
    /** The number of the faulty field, or 0. */
    private final int field;
    /** The name of this field, or nothing. */
    private final String fieldName;
    /** What is wanted there. */
    private final String sentence;

    Fault(long row, Cause cause, int field, int column) {
        super("row " + row + ": " + cause);
        this.row = row;
        this.cause = cause;
        this.field = field;
        this.fieldName = Registry.fieldName(column);
        this.sentence = Registry.faultSentence(cause, column);
    }

    /**
     * Which row is faulty.
     *
     * @return the number of the first faulty row, counted from 1
     */
    public long row() {
        return row;
    }

    /**
     * What is wrong with it.
     *
     * @return the first cause that applies to it
     */
    public Cause fault() {
        return cause;
    }

    /**
     * Which field of the row is faulty.
     *
     * @return its number, counted from 1: the tag is 1; 0 if it is the row as a whole
     */
    public int field() {
        return field;
    }

    /**
     * How the description of the texts calls this field.
     *
     * @return its name, such as {@code PROPOSED}; empty if it is the row as a whole
     */
    public String fieldName() {
        return fieldName;
    }

    /**
     * What is wanted there.
     *
     * @return a sentence
     */
    public String sentence() {
        return sentence;
    }
}
