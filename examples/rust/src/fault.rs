use crate::native;
use std::error::Error;
use std::fmt;
use std::sync::Mutex;

/// What is wrong with the first faulty row.
#[derive(Clone, Copy, Debug, PartialEq, Eq, Hash)]
#[non_exhaustive]
pub enum Cause {
    /// The text ends although a row must follow, or a row follows the row `end`.
    End,
    /// The tag is unknown or not allowed here.
    Tag,
    /// The number of fields is wrong.
    Fields,
    /// A field is not a number in its one spelling.
    Number,
    /// A field is not a date.
    Date,
    /// A field is not one of the words allowed here.
    Word,
    /// The version of the format is neither 1 nor 2.
    Version,
    /// Something is outside its limits.
    Limit,
    /// A row is out of order in its list.
    Order,
}

impl Cause {
    /// All causes, in the order of their numbers in the library, which count from 1.
    pub const ALL: &'static [Cause] = &[
        Cause::End,
        Cause::Tag,
        Cause::Fields,
        Cause::Number,
        Cause::Date,
        Cause::Word,
        Cause::Version,
        Cause::Limit,
        Cause::Order,
    ];

    /// The word of the cause, as the program writes it.
    pub fn word(self) -> &'static str {
        // (a word is asked for once, and kept as long as the program runs)
        static WORDS: Mutex<Vec<&'static str>> = Mutex::new(Vec::new());
        let mut words = WORDS.lock().unwrap_or_else(|poisoned| poisoned.into_inner());
        for number in words.len()..Cause::ALL.len() {
            words.push(Box::leak(native::cause_word(number as u32 + 1).into_boxed_str()));
        }
        words[self as usize]
    }
}

impl fmt::Display for Cause {
    fn fmt(&self, f: &mut fmt::Formatter<'_>) -> fmt::Result {
        f.write_str(self.word())
    }
}

/// Why there is no text.
///
/// ```
/// use registry::{Cause, Fault};
///
/// let fault = registry::settle(&std::fs::read("../wrong-date.csv")?).unwrap_err();
/// assert_eq!(fault.to_string(), "row 12: date");
/// assert!(matches!(fault, Fault::Row { row: 12, cause: Cause::Date }));
/// # Ok::<(), Box<dyn std::error::Error>>(())
/// ```
#[derive(Clone, Copy, Debug, PartialEq, Eq, Hash)]
#[non_exhaustive]
pub enum Fault {
    /// The bytes are no day text.
    Row {
        /// The number of the first faulty row, counted from 1.
        row: u64,
        /// The first cause that applies to it.
        cause: Cause,
    },
    /// The day has no account of this number.
    NoAccount(u32),
    /// The date of a next day is not later than the day, or no date of a day text.
    NoNextDate,
    /// Memory ran out.
    NoMemory,
}

impl fmt::Display for Fault {
    fn fmt(&self, f: &mut fmt::Formatter<'_>) -> fmt::Result {
        match self {
            Fault::Row { row, cause } => write!(f, "row {row}: {cause}"),
            Fault::NoAccount(account) => write!(f, "no such account: {account}"),
            Fault::NoNextDate => f.write_str("the next day is later than the day, and a date of a day text"),
            Fault::NoMemory => f.write_str("out of memory"),
        }
    }
}

impl Error for Fault {}

/// A field of a faulty row.
#[derive(Clone, Debug, PartialEq, Eq, Hash)]
#[non_exhaustive]
pub struct Field {
    /// Its number in the row, counted from 1: the tag is 1.
    pub number: usize,
    /// Its name in the description of the texts, such as `PROPOSED`.
    pub name: String,
}

/// Where the first fault of a text stands, and what is wanted there: [`find_fault`](crate::find_fault) tells it.
#[derive(Clone, Debug, PartialEq, Eq, Hash)]
#[non_exhaustive]
pub struct Place {
    /// The number of the first faulty row, counted from 1.
    pub row: u64,
    /// The first cause that applies to it.
    pub cause: Cause,
    /// The faulty field; none if it is the row as a whole.
    pub field: Option<Field>,
    /// What is wanted there, in a sentence.
    pub sentence: String,
}
