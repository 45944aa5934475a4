package registry;

import java.io.ByteArrayOutputStream;
import java.nio.charset.StandardCharsets;
import java.util.ArrayList;
import java.util.List;

/** Splits a day text into its rows, as the library does: without quotes, empty lines and a byte order mark. */
final class DayRows {
    private enum At { ROW_START, FIELD_START, PLAIN, QUOTED, QUOTE_IN_QUOTED }

    private static final int[] MARK = {0xEF, 0xBB, 0xBF};

    private final List<String[]> rows = new ArrayList<>();
    private final List<String> row = new ArrayList<>();
    private final ByteArrayOutputStream field = new ByteArrayOutputStream();
    private At at = At.ROW_START;

    private DayRows() {}

    static List<String[]> of(byte[] text) {
        DayRows own = new DayRows();
        for (int place = hasMark(text) ? MARK.length : 0; place < text.length; place++) {
            own.take((char) (text[place] & 0xFF));
        }
        if (own.at != At.ROW_START) {
            own.endRow();
        }
        return own.rows;
    }

    private static boolean hasMark(byte[] text) {
        boolean has = text.length >= MARK.length;
        for (int place = 0; has && place < MARK.length; place++) {
            has = (text[place] & 0xFF) == MARK[place];
        }
        return has;
    }

    private void take(char next) {
        if (at == At.QUOTED || at == At.QUOTE_IN_QUOTED && next == '"') {
            if (at == At.QUOTED && next == '"') {
                at = At.QUOTE_IN_QUOTED;
            } else {
                push(next, At.QUOTED);
            }
        } else if (next == '\n' || next == '\r') {
            if (at != At.ROW_START) {
                endRow();
            }
            at = At.ROW_START;
        } else if (next == ',') {
            endField();
            at = At.FIELD_START;
        } else if (next == '"' && at != At.PLAIN && at != At.QUOTE_IN_QUOTED) {
            at = At.QUOTED;
        } else {
            push(next, At.PLAIN);
        }
    }

    private void push(char next, At then) {
        field.write(next);
        at = then;
    }

    private void endField() {
        row.add(field.toString(StandardCharsets.UTF_8));
        field.reset();
    }

    private void endRow() {
        endField();
        rows.add(row.toArray(new String[0]));
        row.clear();
    }
}
