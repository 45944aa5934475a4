//! The settlement engine of an emission allowance registry, over its proved static library.
//!
//! ```
//! let day = std::fs::read("../first-transfer.csv")?;
//! let report = registry::settle(&day)?;
//! assert!(report.log().all(|row| row.is_done()));
//! # Ok::<(), Box<dyn std::error::Error>>(())
//! ```
//!
//! A day text may be any bytes, and each function may be called from several threads at once. All `unsafe` code is in
//! `native.rs`.
#![deny(unsafe_code)]
#![warn(missing_docs)]

mod account;
mod day;
mod fault;
mod instruction;
#[allow(unsafe_code)]
mod native;
mod report;
mod rows;
mod rules;
mod session;
mod values;
mod writing;

pub use account::{Account, Retired};
pub use day::{Day, Determined, Statement, Task};
pub use fault::{Cause, Fault, Field, Place};
pub use instruction::{Act, Instruction, Share};
pub use report::{Log, LogRow, Outcome, Refusal, Report, Totals};
pub use rules::{Period, Rules};
pub use session::Session;
pub use values::{AccountKind, Date, Holding, Kind, Right, Status};
pub use writing::write_day;

/// The report of the day that these bytes describe.
///
/// ```
/// let report = registry::settle(&std::fs::read("../first-transfer.csv")?)?;
/// for row in report.log() {
///     println!("record {}: {}", row.record(), row.instruction().act.word());
/// }
/// # Ok::<(), Box<dyn std::error::Error>>(())
/// ```
///
/// # Errors
/// `Row` if they are no day text. `NoMemory` if memory ran out.
pub fn settle(day: &[u8]) -> Result<Report, Fault> {
    native::settle(day).map(Report::from_text)
}

/// How many bytes the report of a day text of this length has at most: eight times as many, or `usize::MAX` if that is
/// more. It was proved.
///
/// ```
/// let day = std::fs::read("../first-transfer.csv")?;
/// assert!(registry::settle(&day)?.text().len() <= registry::report_most(day.len()));
/// # Ok::<(), Box<dyn std::error::Error>>(())
/// ```
pub fn report_most(day_length: usize) -> usize {
    native::report_most(day_length)
}

/// The log of the day as a trial: why each instruction is done or refused.
///
/// ```
/// let log = registry::attempt(&std::fs::read("../morning-batch.csv")?)?;
/// let why: Vec<String> = log.rows().filter_map(|row| row.refusal()).map(|own| own.sentence()).collect();
/// assert_eq!(why.len(), 7);
/// # Ok::<(), Box<dyn std::error::Error>>(())
/// ```
///
/// # Errors
/// As [`settle`].
pub fn attempt(day: &[u8]) -> Result<Log, Fault> {
    native::attempt(day).map(Log::from_text)
}

/// The text of the plan: which instructions must wait for which others.
///
/// ```
/// let plan = registry::plan(&std::fs::read("../morning-batch.csv")?)?;
/// assert!(plan.ends_with(b"\nend\n"));
/// # Ok::<(), Box<dyn std::error::Error>>(())
/// ```
///
/// # Errors
/// As [`settle`].
pub fn plan(day: &[u8]) -> Result<Vec<u8>, Fault> {
    native::plan(day)
}

/// The text of an account's statement over the day.
///
/// ```
/// use registry::Fault;
///
/// let day = std::fs::read("../first-transfer.csv")?;
/// assert!(registry::statement(&day, 1)?.starts_with(b"opening,1,100,0\n"));
/// assert_eq!(registry::statement(&day, 7), Err(Fault::NoAccount(7)));
/// # Ok::<(), Box<dyn std::error::Error>>(())
/// ```
///
/// # Errors
/// As [`settle`], and `NoAccount` if the day has no such account.
pub fn statement(day: &[u8], account: u32) -> Result<Vec<u8>, Fault> {
    native::statement(day, account)
}

/// The texts of the statements of all accounts, by rising number, one behind another, after one settlement. Each ends
/// with its row `end`.
///
/// ```
/// let day = std::fs::read("../first-transfer.csv")?;
/// let all = String::from_utf8(registry::statements(&day)?)?;
/// let first = all.split_inclusive("\nend\n").next().ok_or("no account")?;
/// assert_eq!(first.as_bytes(), registry::statement(&day, 1)?);
/// # Ok::<(), Box<dyn std::error::Error>>(())
/// ```
///
/// # Errors
/// As [`settle`].
pub fn statements(day: &[u8]) -> Result<Vec<u8>, Fault> {
    native::statements(day)
}

/// The text of the determined compliance figures after the day.
///
/// ```
/// let figures = registry::figures(&std::fs::read("../compliance-year.csv")?)?;
/// assert!(figures.starts_with(b"determined,"));
/// # Ok::<(), Box<dyn std::error::Error>>(())
/// ```
///
/// # Errors
/// As [`settle`].
pub fn figures(day: &[u8]) -> Result<Vec<u8>, Fault> {
    native::figures(day)
}

/// The text of the totals after the day.
///
/// ```
/// let totals = registry::totals(&std::fs::read("../first-transfer.csv")?)?;
/// assert_eq!(totals, b"totals,general,100,0,0\ntotals,aviation,50,0,0\nend\n");
/// # Ok::<(), Box<dyn std::error::Error>>(())
/// ```
///
/// # Errors
/// As [`settle`].
pub fn totals(day: &[u8]) -> Result<Vec<u8>, Fault> {
    native::totals(day)
}

/// The text of the next day up to its instructions, from the text of a day: its `do` rows, if it has some, and the row
/// `end` go behind it.
///
/// ```
/// use registry::Date;
///
/// let mut next = registry::next_day(
///     &std::fs::read("../first-transfer.csv")?,
///     Date { year: 2025, month: 4, day: 1 },
/// )?;
/// next.extend_from_slice(b"end\n");
/// assert_eq!(registry::settle(&next)?.accounts().next().map(|own| own.general), Some(60));
/// # Ok::<(), Box<dyn std::error::Error>>(())
/// ```
///
/// # Errors
/// As [`settle`], and `NoNextDate` if the date is not later than the day, or no date of a day text.
pub fn next_day(day: &[u8], date: Date) -> Result<Vec<u8>, Fault> {
    native::next_day(day, &date.to_string())
}

/// Where the first fault of these bytes stands, and what is wanted there. `None` if they are a day text.
///
/// ```
/// let place = registry::find_fault(&std::fs::read("../wrong-date.csv")?)?.ok_or("no fault")?;
/// let field = place.field.ok_or("no field")?;
/// assert_eq!((place.row, field.number, field.name.as_str()), (12, 2, "PROPOSED"));
/// assert!(place.sentence.starts_with("A date YYYY-MM-DD is wanted"));
/// # Ok::<(), Box<dyn std::error::Error>>(())
/// ```
///
/// # Errors
/// `NoMemory` if memory ran out.
pub fn find_fault(day: &[u8]) -> Result<Option<Place>, Fault> {
    native::find_fault(day)
}

/// The version of the engine, such as `1.2`.
///
/// ```
/// assert!(registry::version().starts_with("1."));
/// ```
pub fn version() -> String {
    native::version()
}

/// The name of the check with this code, as a log has it. Another code has the empty text.
///
/// ```
/// assert_eq!(registry::refusal_word(18), "NotEnough");
/// ```
pub fn refusal_word(code: u32) -> String {
    native::refusal_word(code)
}

/// Why the check with this code refuses an instruction, in a sentence. A code that is no check's has the empty text.
///
/// ```
/// assert_eq!(registry::refusal_sentence(14), "An amount is 0.");
/// ```
pub fn refusal_sentence(code: u32) -> String {
    native::refusal_sentence(code)
}
