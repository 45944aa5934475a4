use crate::values::{AccountKind, Date, Fields, Kind};

/// The first and the last year of a period.
#[derive(Clone, Copy, Debug, PartialEq, Eq, Hash)]
pub struct Period {
    /// Its first year.
    pub first: u16,
    /// Its last year.
    pub last: u16,
}

/// The rows before the accounts of a day text. A lag is a number of working days.
#[derive(Clone, Debug, PartialEq, Eq)]
#[non_exhaustive]
pub struct Rules {
    /// The version of the text, 1 or 2. A text in version 1 has one period.
    pub version: u8,
    /// The settlement day.
    pub day: Date,
    /// The record number of its first instruction.
    pub next_record: u64,
    /// The periods, from period 1 on.
    pub periods: Vec<Period>,
    /// The current period.
    pub current: u8,
    /// The lag of transfers to trusted accounts.
    pub trusted_lag: u16,
    /// The lag of all other transfers.
    pub other_lag: u16,
    /// How long it takes until an entry of a trusted list is in effect.
    pub list_lag: u16,
    /// How long a surrender or a deletion may be reversed.
    pub reversal_window: u16,
    /// From which kinds of accounts which kinds of allowances may be surrendered.
    pub surrender: Vec<(AccountKind, Kind)>,
    /// The administrators.
    pub admins: Vec<u32>,
    /// The working days.
    pub working_days: Vec<Date>,
}

impl Rules {
    /// The rules of a day, in version 2, with one period and no lag; nothing may be surrendered, and there is neither an
    /// administrator nor a working day yet.
    pub fn new(day: Date, next_record: u64, period: Period) -> Self {
        Rules {
            version: 2,
            day,
            next_record,
            periods: vec![period],
            current: 1,
            trusted_lag: 0,
            other_lag: 0,
            list_lag: 0,
            reversal_window: 0,
            surrender: Vec::new(),
            admins: Vec::new(),
            working_days: Vec::new(),
        }
    }

    /// What the rows of a day text say before its first account.
    pub(crate) fn read<'a>(rows: impl Iterator<Item = &'a [String]>) -> Self {
        let mut own = Rules::new(Date { year: 0, month: 0, day: 0 }, 0, Period { first: 0, last: 0 });
        own.periods.clear();
        for row in rows {
            let mut fields = Fields::in_row(row);
            match fields.text() {
                "format" => own.version = fields.number(),
                "day" => (own.day, own.next_record) = (fields.date(), fields.number()),
                "period" => own.periods.push(Period { first: fields.number(), last: fields.number() }),
                "current" => own.current = fields.number(),
                "lags" => {
                    (own.trusted_lag, own.other_lag) = (fields.number(), fields.number());
                    (own.list_lag, own.reversal_window) = (fields.number(), fields.number());
                }
                "surrender" => own.surrender.push((fields.value(AccountKind::of), fields.value(Kind::of))),
                "admin" => own.admins.push(fields.number()),
                "work" => own.working_days.push(fields.date()),
                _ => break,
            }
        }
        own
    }
}
