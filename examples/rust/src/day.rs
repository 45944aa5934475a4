use crate::account::{Account, Accounts};
use crate::fault::Fault;
use crate::instruction::Instruction;
use crate::native;
use crate::report::{owned, Log, LogRow, Report, Totals};
use crate::rows::rows_of;
use crate::rules::Rules;
use crate::values::{Date, Fields, Holding};
use std::iter;

/// A day text, with its questions as typed rows. Each question is a call of the library, and has its errors.
///
/// ```
/// let text = std::fs::read("../first-transfer.csv")?;
/// let day = registry::Day::new(&text);
/// assert_eq!(day.statement(1)?.closing().general, 60);
/// assert_eq!(day.totals()?[0].held, 100);
/// let again = registry::write_day(&day.rules()?, &day.accounts()?, &day.instructions()?);
/// assert_eq!(again, text);
/// # Ok::<(), Box<dyn std::error::Error>>(())
/// ```
#[derive(Clone, Copy, Debug, PartialEq, Eq)]
pub struct Day<'a> {
    text: &'a [u8],
}

impl<'a> Day<'a> {
    /// A day text. It is looked at by the first question.
    pub fn new(text: &'a [u8]) -> Self {
        Day { text }
    }

    /// The text.
    pub fn text(self) -> &'a [u8] {
        self.text
    }

    /// The report of the settled day.
    ///
    /// # Errors
    /// `Row` if the text is no day text. `NoMemory` if memory ran out.
    pub fn settle(self) -> Result<Report, Fault> {
        crate::settle(self.text)
    }

    /// The log of the day as a trial.
    ///
    /// # Errors
    /// As [`Day::settle`].
    pub fn attempt(self) -> Result<Log, Fault> {
        crate::attempt(self.text)
    }

    /// Which instructions must wait for which others, in the order of the instructions.
    ///
    /// # Errors
    /// As [`Day::settle`].
    pub fn plan(self) -> Result<Vec<Task>, Fault> {
        native::plan(self.text).map(|text| tasks_of(&owned(text)))
    }

    /// The statement of an account.
    ///
    /// # Errors
    /// As [`Day::settle`], and `NoAccount` if the day has no such account.
    pub fn statement(self, account: u32) -> Result<Statement, Fault> {
        native::statement(self.text, account).map(Statement::from_text)
    }

    /// The statements of all accounts, by rising number, after one settlement.
    ///
    /// # Errors
    /// As [`Day::settle`].
    pub fn statements(self) -> Result<Vec<Statement>, Fault> {
        let text = owned(native::statements(self.text)?);
        let mut rest = text.as_str();
        Ok(iter::from_fn(|| {
            let end = rest.find(END)? + END.len();
            let (first, behind) = rest.split_at(end);
            rest = behind;
            Some(Statement { text: first.to_owned() })
        })
        .collect())
    }

    /// The determined compliance figures of all accounts after the day.
    ///
    /// # Errors
    /// As [`Day::settle`].
    pub fn figures(self) -> Result<Vec<Determined>, Fault> {
        let text = owned(native::figures(self.text)?);
        Ok(text.lines().filter_map(|row| row.strip_prefix("determined,")).map(Determined::of).collect())
    }

    /// What all accounts together hold, have surrendered and have deleted after the day.
    ///
    /// # Errors
    /// As [`Day::settle`].
    pub fn totals(self) -> Result<Vec<Totals>, Fault> {
        let text = owned(native::totals(self.text)?);
        Ok(text.lines().filter_map(|row| row.strip_prefix("totals,")).map(Totals::of).collect())
    }

    /// The text of the next day up to its instructions.
    ///
    /// # Errors
    /// As [`Day::settle`], and `NoNextDate` if the date is not later than the day, or no date of a day text.
    pub fn next_day(self, date: Date) -> Result<Vec<u8>, Fault> {
        crate::next_day(self.text, date)
    }

    /// What stands before the accounts.
    ///
    /// # Errors
    /// As [`Day::settle`].
    pub fn rules(self) -> Result<Rules, Fault> {
        Ok(Rules::read(self.rows()?.iter().map(Vec::as_slice)))
    }

    /// The accounts before the day, by rising number.
    ///
    /// # Errors
    /// As [`Day::settle`].
    pub fn accounts(self) -> Result<Vec<Account>, Fault> {
        let rows = self.rows()?;
        let book = rows.iter().skip_while(|row| row[0] != "account");
        let own = book.take_while(|row| row[0] != "do" && row[0] != "end");
        Ok(Accounts::of(own.map(|row| Fields::in_row(row))).collect())
    }

    /// The instructions, in their order.
    ///
    /// # Errors
    /// As [`Day::settle`].
    pub fn instructions(self) -> Result<Vec<Instruction>, Fault> {
        let rows = self.rows()?;
        let own = rows.iter().filter(|row| row[0] == "do");
        Ok(own.map(|row| Instruction::read(&mut Fields::in_row(&row[1..]))).collect())
    }

    /// The rows of the text, which the library has looked at.
    fn rows(self) -> Result<Vec<Vec<String>>, Fault> {
        native::plan(self.text)?;
        Ok(rows_of(self.text))
    }
}

// How a statement ends.
const END: &str = "\nend\n";

/// The place of an instruction in the plan.
#[derive(Clone, Debug, PartialEq, Eq, Hash)]
#[non_exhaustive]
pub struct Task {
    /// Its place among the instructions, counted from 1.
    pub place: u32,
    /// Its level: it waits for some of lower levels.
    pub level: u32,
    /// The places that it waits for, each with the account that both touch.
    pub waits_for: Vec<(u32, u32)>,
}

fn tasks_of(text: &str) -> Vec<Task> {
    let mut tasks: Vec<Task> = Vec::new();
    for row in text.lines() {
        let mut fields = Fields::of(row);
        match (fields.text(), tasks.last_mut()) {
            ("task", _) => {
                tasks.push(Task { place: fields.number(), level: fields.number(), waits_for: Vec::new() });
            }
            ("arrow", Some(task)) => {
                let (from, _, account) = (fields.number(), fields.text(), fields.number());
                task.waits_for.push((from, account));
            }
            _ => {}
        }
    }
    tasks
}

/// A determined compliance figure.
#[derive(Clone, Copy, Debug, PartialEq, Eq, Hash)]
#[non_exhaustive]
pub struct Determined {
    /// The account.
    pub account: u32,
    /// The year.
    pub year: u16,
    /// The figure, in tonnes.
    pub figure: i64,
}

impl Determined {
    fn of(row: &str) -> Self {
        let mut fields = Fields::of(row);
        Determined { account: fields.number(), year: fields.number(), figure: fields.number() }
    }
}

/// The statement of an account over a day.
#[derive(Clone, Debug, PartialEq, Eq)]
pub struct Statement {
    text: String,
}

impl Statement {
    fn from_text(text: Vec<u8>) -> Self {
        Statement { text: owned(text) }
    }

    /// The whole text.
    pub fn text(&self) -> &str {
        &self.text
    }

    /// What the account held before the day.
    pub fn opening(&self) -> Holding {
        self.holding("opening,")
    }

    /// What it holds after.
    pub fn closing(&self) -> Holding {
        self.holding("closing,")
    }

    /// The rows of the log that name the account.
    pub fn log(&self) -> impl Iterator<Item = LogRow<'_>> {
        self.text.lines().filter_map(LogRow::of)
    }

    fn holding(&self, tag: &str) -> Holding {
        let row = self.text.lines().find_map(|row| row.strip_prefix(tag)).unwrap_or("0,0,0");
        let mut fields = Fields::of(row);
        Holding { account: fields.number(), general: fields.number(), aviation: fields.number() }
    }
}
