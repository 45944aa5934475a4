//! The values of the fields of a text.

use std::fmt;
use std::slice::Iter;
use std::str::{FromStr, Split};

/// Makes the values that each have a word in the texts.
macro_rules! words {
    ($(#[$about:meta])* $name:ident { $($(#[$what:meta])* $value:ident = $word:literal,)* }) => {
        $(#[$about])*
        #[derive(Clone, Copy, Debug, PartialEq, Eq, Hash, PartialOrd, Ord)]
        #[non_exhaustive]
        pub enum $name {
            $($(#[$what])* $value,)*
        }

        impl $name {
            /// The word in the texts.
            pub fn word(self) -> &'static str {
                match self {
                    $($name::$value => $word,)*
                }
            }

            pub(crate) fn of(word: &str) -> Option<Self> {
                match word {
                    $($word => Some($name::$value),)*
                    _ => None,
                }
            }
        }

        impl fmt::Display for $name {
            fn fmt(&self, f: &mut fmt::Formatter<'_>) -> fmt::Result {
                f.write_str(self.word())
            }
        }
    };
}

words! {
    /// A kind of allowance.
    Kind {
        /// A general allowance.
        General = "general",
        /// An aviation allowance.
        Aviation = "aviation",
    }
}

words! {
    /// A kind of account.
    AccountKind {
        /// The account in which allowances are created.
        Total = "total",
        /// The account from which operators receive allowances.
        Allocation = "allocation",
        /// The account of an operator.
        Operator = "operator",
        /// The account of an aircraft operator.
        Aircraft = "aircraft",
        /// The account of a trader.
        Trading = "trading",
    }
}

impl AccountKind {
    /// Its place among the kinds by which the rows `surrender` rise: operators stand first.
    pub(crate) fn rank(self) -> usize {
        let rising = [AccountKind::Operator, AccountKind::Aircraft, AccountKind::Trading, AccountKind::Allocation];
        rising.iter().position(|own| *own == self).unwrap_or(rising.len())
    }
}

words! {
    /// The status of an account.
    Status {
        /// It may do all that its kind may do.
        Open = "open",
        /// It gives no allowances away.
        Blocked = "blocked",
        /// It takes no part in compliance.
        Excluded = "excluded",
        /// It stays as it is.
        Closed = "closed",
    }
}

words! {
    /// What a representative may do for an account.
    Right {
        /// Propose.
        Propose = "propose",
        /// Approve what somebody else has proposed.
        Approve = "approve",
        /// Both.
        Both = "both",
    }
}

/// A day, which is written `YYYY-MM-DD`. An earlier one is less.
#[derive(Clone, Copy, Debug, PartialEq, Eq, Hash, PartialOrd, Ord)]
pub struct Date {
    /// The year, 2021 to 2100.
    pub year: u16,
    /// The month, 1 to 12.
    pub month: u8,
    /// The day of the month.
    pub day: u8,
}

impl fmt::Display for Date {
    fn fmt(&self, f: &mut fmt::Formatter<'_>) -> fmt::Result {
        write!(f, "{:04}-{:02}-{:02}", self.year, self.month, self.day)
    }
}

/// What an account holds, in allowances.
#[derive(Clone, Copy, Debug, PartialEq, Eq, Hash)]
pub struct Holding {
    /// The number of the account.
    pub account: u32,
    /// General allowances.
    pub general: u64,
    /// Aviation allowances.
    pub aviation: u64,
}

// What the library has promised of each row that it writes, and has looked at in each row that it reads.
const WRITTEN: &str = "the library writes and takes each row in its form";

/// The fields of a row that the library has written or read, from left to right.
#[derive(Clone)]
pub(crate) struct Fields<'a> {
    fields: Parts<'a>,
}

#[derive(Clone)]
enum Parts<'a> {
    Written(Split<'a, char>),
    Read(Iter<'a, String>),
}

impl<'a> Fields<'a> {
    /// Those of a row that it has written, which has no quotes.
    pub(crate) fn of(row: &'a str) -> Self {
        Fields { fields: Parts::Written(row.split(',')) }
    }

    /// Those of a row of a day text that it has read.
    pub(crate) fn in_row(row: &'a [String]) -> Self {
        Fields { fields: Parts::Read(row.iter()) }
    }

    pub(crate) fn text(&mut self) -> &'a str {
        self.more().expect(WRITTEN)
    }

    /// The next field; nothing, if there is none.
    pub(crate) fn more(&mut self) -> Option<&'a str> {
        match &mut self.fields {
            Parts::Written(fields) => fields.next(),
            Parts::Read(fields) => fields.next().map(String::as_str),
        }
    }

    pub(crate) fn number<N: FromStr>(&mut self) -> N {
        number(self.text())
    }

    /// A number, if the field is not empty.
    pub(crate) fn number_if_any<N: FromStr>(&mut self) -> Option<N> {
        Some(self.text()).filter(|field| !field.is_empty()).map(number)
    }

    pub(crate) fn value<V>(&mut self, of: impl FnOnce(&str) -> Option<V>) -> V {
        of(self.text()).expect(WRITTEN)
    }

    pub(crate) fn is_yes(&mut self) -> bool {
        self.text() == "yes"
    }

    pub(crate) fn date(&mut self) -> Date {
        let mut parts = self.text().split('-');
        let mut part = || parts.next().expect(WRITTEN);
        Date { year: number(part()), month: number(part()), day: number(part()) }
    }

    /// The holdings that all other fields tell.
    pub(crate) fn holdings(&mut self) -> Vec<Holding> {
        let mut holdings = Vec::new();
        while let Some(account) = self.more() {
            let holding = Holding { account: number(account), general: self.number(), aviation: self.number() };
            holdings.push(holding);
        }
        holdings
    }
}

pub(crate) fn number<N: FromStr>(field: &str) -> N {
    field.parse().ok().expect(WRITTEN)
}
