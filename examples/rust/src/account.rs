use crate::values::{AccountKind, Date, Fields, Kind, Right, Status};
use std::collections::BTreeMap;

/// What an account has surrendered or deleted.
#[derive(Clone, Copy, Debug, PartialEq, Eq, Hash)]
pub struct Retired {
    /// Its record number.
    pub record: u64,
    /// The period of a surrender, counted from 1. A deletion has none.
    pub period: Option<u8>,
    /// The kind of its allowances.
    pub kind: Kind,
    /// How many allowances.
    pub amount: u64,
    /// The day on which it was settled.
    pub day: Date,
    /// Whether it was reversed.
    pub is_reversed: bool,
}

impl Retired {
    fn read(fields: &mut Fields<'_>) -> Self {
        let record = fields.number();
        let is_surrender = fields.text() == "surrender";
        let (kind, amount, day) = (fields.value(Kind::of), fields.number(), fields.date());
        let is_reversed = fields.is_yes();
        // (the first period is not written)
        let written = fields.more().map_or(1, crate::values::number);
        Retired { record, period: is_surrender.then_some(written), kind, amount, day, is_reversed }
    }
}

/// An account with its lists. Amounts are allowances; corrections, emissions and figures are tonnes.
#[derive(Clone, Debug, PartialEq, Eq)]
#[non_exhaustive]
pub struct Account {
    /// Its number.
    pub number: u32,
    /// Its kind.
    pub kind: AccountKind,
    /// The number of its holder.
    pub holder: u32,
    /// Its status.
    pub status: Status,
    /// Whether it allows transfers outside its trusted list.
    pub allows_outside: bool,
    /// Whether a transfer to a trusted account needs no approval.
    pub has_waiver: bool,
    /// The general allowances that it holds.
    pub general: u64,
    /// The aviation allowances that it holds.
    pub aviation: u64,
    /// Its correction factors by period. A period that is not there has the factor 0.
    pub corrections: BTreeMap<u8, i64>,
    /// The right of each representative.
    pub users: BTreeMap<u32, Right>,
    /// Its trusted list: the day on which each entry takes effect.
    pub trusted: BTreeMap<u32, Date>,
    /// What it has surrendered and deleted, by rising record number.
    pub retired: Vec<Retired>,
    /// Its verified emissions by year.
    pub emissions: BTreeMap<u16, u64>,
    /// Its compliance figures, as they were last determined, by year.
    pub figures: BTreeMap<u16, i64>,
}

impl Account {
    /// An open account of this number, kind and holder, which holds nothing and has no lists yet.
    pub fn new(number: u32, kind: AccountKind, holder: u32) -> Self {
        Account {
            number,
            kind,
            holder,
            status: Status::Open,
            allows_outside: false,
            has_waiver: false,
            general: 0,
            aviation: 0,
            corrections: BTreeMap::from([(1, 0)]),
            users: BTreeMap::new(),
            trusted: BTreeMap::new(),
            retired: Vec::new(),
            emissions: BTreeMap::new(),
            figures: BTreeMap::new(),
        }
    }

    fn read(fields: &mut Fields<'_>) -> Self {
        let (number, kind) = (fields.number(), fields.value(AccountKind::of));
        let (holder, status) = (fields.number(), fields.value(Status::of));
        let (allows_outside, has_waiver) = (fields.is_yes(), fields.is_yes());
        let corrections = BTreeMap::from([(1, fields.number())]);
        Account {
            number,
            kind,
            holder,
            status,
            allows_outside,
            has_waiver,
            general: fields.number(),
            aviation: fields.number(),
            corrections,
            users: BTreeMap::new(),
            trusted: BTreeMap::new(),
            retired: Vec::new(),
            emissions: BTreeMap::new(),
            figures: BTreeMap::new(),
        }
    }

    /// Takes a row of one of its lists.
    fn add(&mut self, tag: &str, fields: &mut Fields<'_>) {
        match tag {
            "correction" => drop(self.corrections.insert(fields.number(), fields.number())),
            "user" => drop(self.users.insert(fields.number(), fields.value(Right::of))),
            "trusted" => drop(self.trusted.insert(fields.number(), fields.date())),
            "retired" => self.retired.push(Retired::read(fields)),
            "emissions" => drop(self.emissions.insert(fields.number(), fields.number())),
            "figure" => drop(self.figures.insert(fields.number(), fields.number())),
            _ => unreachable!("no account has a row {tag}"),
        }
    }
}

/// The accounts of a book, one after another, each with the rows of its lists.
pub(crate) struct Accounts<R> {
    rows: R,
    next: Option<Account>,
}

impl<'a, R: Iterator<Item = Fields<'a>>> Accounts<R> {
    pub(crate) fn of(rows: R) -> Self {
        Accounts { rows, next: None }
    }
}

impl<'a, R: Iterator<Item = Fields<'a>>> Iterator for Accounts<R> {
    type Item = Account;

    fn next(&mut self) -> Option<Account> {
        for mut fields in self.rows.by_ref() {
            match (fields.text(), self.next.as_mut()) {
                ("account", _) => {
                    let before = self.next.replace(Account::read(&mut fields));
                    if before.is_some() {
                        return before;
                    }
                }
                (tag, Some(account)) => account.add(tag, &mut fields),
                (_, None) => {}
            }
        }
        self.next.take()
    }
}
