//! The rows of a day text, as the library reads them.

const MARK: &[u8] = b"\xef\xbb\xbf";

/// Where the reader stands in a row.
#[derive(Clone, Copy, PartialEq)]
enum At {
    RowStart,
    FieldStart,
    Plain,
    Quoted,
    QuoteInQuoted,
}

/// The rows of a text with their fields, without quotes and empty lines. A byte order mark at the front is skipped.
pub(crate) fn rows_of(text: &[u8]) -> Vec<Vec<String>> {
    let mut rows = Rows::default();
    let mut at = At::RowStart;
    for byte in text.strip_prefix(MARK).unwrap_or(text) {
        at = rows.take(at, *byte);
    }
    if at != At::RowStart {
        rows.end_row();
    }
    rows.whole
}

#[derive(Default)]
struct Rows {
    whole: Vec<Vec<String>>,
    row: Vec<String>,
    field: Vec<u8>,
}

impl Rows {
    fn take(&mut self, at: At, byte: u8) -> At {
        match (at, byte) {
            (At::Quoted, b'"') => At::QuoteInQuoted,
            (At::Quoted, _) => self.push(byte, At::Quoted),
            (At::QuoteInQuoted, b'"') => self.push(byte, At::Quoted),
            (At::RowStart, b'\n' | b'\r') => At::RowStart,
            (_, b'\n' | b'\r') => {
                self.end_row();
                At::RowStart
            }
            (_, b',') => {
                self.end_field();
                At::FieldStart
            }
            (At::RowStart | At::FieldStart, b'"') => At::Quoted,
            _ => self.push(byte, At::Plain),
        }
    }

    fn push(&mut self, byte: u8, at: At) -> At {
        self.field.push(byte);
        at
    }

    fn end_field(&mut self) {
        let field = std::mem::take(&mut self.field);
        self.row.push(String::from_utf8_lossy(&field).into_owned());
    }

    fn end_row(&mut self) {
        self.end_field();
        self.whole.push(std::mem::take(&mut self.row));
    }
}
