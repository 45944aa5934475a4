use crate::account::{Account, Accounts};
use crate::instruction::Instruction;
use crate::values::{Date, Fields, Holding, Kind};

/// The report of a settled day, byte for byte as the program writes it.
///
/// ```
/// let report = registry::settle(&std::fs::read("../morning-batch.csv")?)?;
/// assert!(report.text().ends_with("\nend\n"));
/// assert_eq!(report.log().filter(|row| row.is_done()).count(), 3);
/// assert_eq!(report.next_record(), 48221);
/// # Ok::<(), Box<dyn std::error::Error>>(())
/// ```
#[derive(Clone, Debug, PartialEq, Eq)]
pub struct Report {
    text: String,
}

impl Report {
    pub(crate) fn from_text(text: Vec<u8>) -> Self {
        Report { text: owned(text) }
    }

    /// The whole text.
    pub fn text(&self) -> &str {
        &self.text
    }

    /// The rows of the log.
    pub fn log(&self) -> impl Iterator<Item = LogRow<'_>> {
        self.text.lines().map_while(LogRow::of)
    }

    /// The next record number after the day.
    pub fn next_record(&self) -> u64 {
        let mut book = self.text.lines().filter_map(|row| row.strip_prefix("book,"));
        crate::values::number(book.next().unwrap_or(""))
    }

    /// The rows of the accounts after the day, with those of their lists.
    pub fn book(&self) -> impl Iterator<Item = &str> {
        let behind = self.text.lines().skip_while(|row| !row.starts_with("book,"));
        behind.skip(1).take_while(|row| !row.starts_with("totals,"))
    }

    /// The accounts after the day, by rising number, each with its lists.
    ///
    /// ```
    /// let report = registry::settle(&std::fs::read("../first-transfer.csv")?)?;
    /// let general: Vec<(u32, u64)> = report.accounts().map(|own| (own.number, own.general)).collect();
    /// assert_eq!(general[..2], [(1, 60), (2, 40)]);
    /// # Ok::<(), Box<dyn std::error::Error>>(())
    /// ```
    pub fn accounts(&self) -> impl Iterator<Item = Account> + '_ {
        Accounts::of(self.book().map(Fields::of))
    }

    /// What all accounts together hold, have surrendered and have deleted after the day.
    pub fn totals(&self) -> impl Iterator<Item = Totals> + '_ {
        let last = &self.text[self.text.rfind("totals,general,").unwrap_or(0)..];
        last.lines().filter_map(|row| row.strip_prefix("totals,")).map(Totals::of)
    }
}

/// What all accounts together hold, have surrendered and have deleted of a kind of allowance.
#[derive(Clone, Copy, Debug, PartialEq, Eq, Hash)]
#[non_exhaustive]
pub struct Totals {
    /// The kind of allowance.
    pub kind: Kind,
    /// What they hold: more than 64 bits if very many hold very much.
    pub held: u128,
    /// What they have surrendered. Reversed surrenders do not count.
    pub surrendered: u128,
    /// What they have deleted. Reversed deletions do not count.
    pub deleted: u128,
}

impl Totals {
    pub(crate) fn of(row: &str) -> Self {
        let mut fields = Fields::of(row);
        Totals {
            kind: fields.value(Kind::of),
            held: fields.number(),
            surrendered: fields.number(),
            deleted: fields.number(),
        }
    }
}

/// The log of a day alone.
#[derive(Clone, Debug, PartialEq, Eq)]
pub struct Log {
    text: String,
}

impl Log {
    pub(crate) fn from_text(text: Vec<u8>) -> Self {
        Log { text: owned(text) }
    }

    /// The whole text.
    pub fn text(&self) -> &str {
        &self.text
    }

    /// The rows of the log.
    pub fn rows(&self) -> impl Iterator<Item = LogRow<'_>> {
        self.text.lines().map_while(LogRow::of)
    }
}

// The library writes ASCII alone.
pub(crate) fn owned(text: Vec<u8>) -> String {
    String::from_utf8(text).expect("the library writes ASCII")
}

/// A row of the log.
///
/// ```
/// use registry::{Act, Outcome};
///
/// let report = registry::settle(&std::fs::read("../first-transfer.csv")?)?;
/// let row = report.log().next().ok_or("no row")?;
/// assert!(matches!(row.instruction().act, Act::Transfer { from: 1, to: 2, amount: 40, .. }));
/// match row.outcome() {
///     Outcome::Done { closing, .. } => assert_eq!(closing[0].general, 60),
///     _ => panic!("not done"),
/// }
/// # Ok::<(), Box<dyn std::error::Error>>(())
/// ```
#[derive(Clone, Copy, Debug, PartialEq, Eq)]
pub struct LogRow<'a> {
    row: &'a str,
}

impl<'a> LogRow<'a> {
    pub(crate) fn of(row: &'a str) -> Option<Self> {
        row.starts_with("log,").then_some(LogRow { row })
    }

    /// The whole row.
    pub fn row(self) -> &'a str {
        self.row
    }

    /// The fields behind the tag.
    fn fields(self) -> Fields<'a> {
        let mut fields = Fields::of(self.row);
        fields.text();
        fields
    }

    /// The record number of the instruction.
    pub fn record(self) -> u64 {
        self.fields().number()
    }

    /// The settlement day.
    pub fn day(self) -> Date {
        let mut fields = self.fields();
        fields.text();
        fields.date()
    }

    /// The instruction.
    pub fn instruction(self) -> Instruction {
        self.read().0
    }

    /// What became of it.
    pub fn outcome(self) -> Outcome<'a> {
        let (_, mut fields) = self.read();
        match fields.text() {
            "done" => Outcome::Done { figure: fields.number_if_any(), closing: fields.holdings() },
            _ => Outcome::Refused(Refusal { code: fields.number(), name: fields.text() }),
        }
    }

    /// The instruction, and the fields of its outcome.
    fn read(self) -> (Instruction, Fields<'a>) {
        let mut fields = self.fields();
        fields.text();
        fields.text();
        (Instruction::read(&mut fields), fields)
    }

    /// Whether the instruction was done.
    pub fn is_done(self) -> bool {
        self.refusal().is_none()
    }

    /// The first check that failed, if the instruction was refused.
    pub fn refusal(self) -> Option<Refusal<'a>> {
        let (_, behind) = self.row.split_once(",refused,")?;
        let mut fields = Fields::of(behind);
        Some(Refusal { code: fields.number(), name: fields.text() })
    }
}

/// What became of an instruction.
#[derive(Clone, Debug, PartialEq, Eq)]
#[non_exhaustive]
pub enum Outcome<'a> {
    /// It was done.
    Done {
        /// The compliance figure that an assessment determined, in tonnes.
        figure: Option<i64>,
        /// What the accounts of the act then held.
        closing: Vec<Holding>,
    },
    /// It was refused.
    Refused(Refusal<'a>),
}

/// Why an instruction was refused.
#[derive(Clone, Copy, Debug, PartialEq, Eq, Hash)]
#[non_exhaustive]
pub struct Refusal<'a> {
    /// The code of the first check that failed.
    pub code: u32,
    /// Its name.
    pub name: &'a str,
}

impl Refusal<'_> {
    /// Why this check refuses an instruction, in a sentence.
    pub fn sentence(self) -> String {
        crate::refusal_sentence(self.code)
    }
}
