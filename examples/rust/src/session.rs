use crate::day::Day;
use crate::fault::Fault;
use crate::instruction::Instruction;
use crate::native;
use crate::report::{owned, LogRow, Report};
use crate::rows::rows_of;
use crate::writing::row_of;

const END: &[u8] = b"end\n";

/// A day whose instructions come one at a time: each is answered as it comes, and the day is asked in between.
///
/// It keeps the day text with the instructions so far. By the proof the last row of its log is what applying the last
/// instruction to the book gives. So each instruction takes the time of a trial of the whole text.
///
/// ```
/// use registry::{Day, Session};
///
/// let text = std::fs::read("../first-transfer.csv")?;
/// let asked = Day::new(&text).instructions()?[0].clone();
/// let mut session = Session::open(&text)?;
/// let row = session.apply(&asked)?;
/// assert_eq!((row.record(), row.is_done()), (2, true));
/// assert_eq!(session.day().statement(1)?.closing().general, 20);
/// assert_eq!(session.close()?.log().count(), 2);
/// # Ok::<(), Box<dyn std::error::Error>>(())
/// ```
#[derive(Clone, Debug, PartialEq, Eq)]
pub struct Session {
    text: Vec<u8>,
    last: String,
}

impl Session {
    /// Opens the day that these bytes describe, with the instructions that they have.
    ///
    /// # Errors
    /// `Row` if they are no day text. `NoMemory` if memory ran out.
    pub fn open(day: &[u8]) -> Result<Self, Fault> {
        native::plan(day)?;
        let text: String = rows_of(day).iter().map(|row| row.join(",") + "\n").collect();
        Ok(Session { text: text.into_bytes(), last: String::new() })
    }

    /// Adds an instruction behind those so far, and answers what becomes of it.
    ///
    /// # Errors
    /// `Row` if something is outside a limit, with its row in the text of the day. `NoMemory` if memory ran out. The day is
    /// then as before.
    pub fn apply(&mut self, instruction: &Instruction) -> Result<LogRow<'_>, Fault> {
        let before = self.text.len() - END.len();
        self.text.truncate(before);
        self.text.extend_from_slice(row_of(instruction).as_bytes());
        self.text.extend_from_slice(END);
        match native::attempt(&self.text) {
            Ok(log) => {
                owned(log).lines().last().unwrap_or("").clone_into(&mut self.last);
                Ok(LogRow::of(&self.last).expect("an instruction has a row of the log"))
            }
            Err(fault) => {
                self.text.truncate(before);
                self.text.extend_from_slice(END);
                Err(fault)
            }
        }
    }

    /// The day with the instructions so far, and all of its questions.
    pub fn day(&self) -> Day<'_> {
        Day::new(&self.text)
    }

    /// The report of the day with the instructions so far. Nothing can be applied afterwards.
    ///
    /// # Errors
    /// `NoMemory` if memory ran out.
    pub fn close(self) -> Result<Report, Fault> {
        self.day().settle()
    }
}
