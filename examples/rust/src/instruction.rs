use crate::values::{number, Date, Fields, Kind, Status};

/// What an account receives of a distribution.
#[derive(Clone, Copy, Debug, PartialEq, Eq, Hash)]
pub struct Share {
    /// The number of the account.
    pub to: u32,
    /// How many allowances.
    pub amount: u64,
}

/// What an instruction asks for. Accounts are told by their numbers.
#[derive(Clone, Debug, PartialEq, Eq, Hash)]
#[non_exhaustive]
#[allow(missing_docs)]
pub enum Act {
    /// Allowances go to another account.
    Transfer { from: u32, to: u32, kind: Kind, amount: u64 },
    /// Allowances that were too many go back.
    Return { from: u32, to: u32, kind: Kind, amount: u64 },
    /// Allowances are surrendered for emissions.
    Surrender { from: u32, kind: Kind, amount: u64 },
    /// Allowances are deleted.
    Delete { from: u32, kind: Kind, amount: u64 },
    /// The surrender or the deletion with this record number is reversed.
    Reverse { account: u32, record: u64 },
    /// Allowances are created.
    Create { to: u32, kind: Kind, amount: u64 },
    /// An administrator moves allowances between two accounts.
    Central { from: u32, to: u32, kind: Kind, amount: u64 },
    /// One to eight accounts receive allowances at once.
    Distribute { from: u32, kind: Kind, shares: Vec<Share> },
    /// An account is put on the trusted list of another one.
    Trust { account: u32, other: u32 },
    /// An account is taken off the trusted list of another one.
    Untrust { account: u32, other: u32 },
    /// An account gets another status.
    Status { account: u32, status: Status },
    /// The verified emissions of a year are entered.
    Emissions { account: u32, year: u16, tonnes: u64 },
    /// The compliance figure of a year is determined.
    Assess { account: u32, year: u16 },
}

impl Act {
    /// The word of the act in the texts.
    pub fn word(&self) -> &'static str {
        match self {
            Act::Transfer { .. } => "transfer",
            Act::Return { .. } => "return",
            Act::Surrender { .. } => "surrender",
            Act::Delete { .. } => "delete",
            Act::Reverse { .. } => "reverse",
            Act::Create { .. } => "create",
            Act::Central { .. } => "central",
            Act::Distribute { .. } => "distribute",
            Act::Trust { .. } => "trust",
            Act::Untrust { .. } => "untrust",
            Act::Status { .. } => "status",
            Act::Emissions { .. } => "emissions",
            Act::Assess { .. } => "assess",
        }
    }

    /// Reads the word of an act and its fields, and leaves what stands behind them. A distribution takes all fields before
    /// `done` or `refused`, and leaves that word.
    fn read<'a>(fields: &mut Fields<'a>) -> Self {
        let word = fields.text();
        let f = fields;
        match word {
            "transfer" => {
                Act::Transfer { from: f.number(), to: f.number(), kind: f.value(Kind::of), amount: f.number() }
            }
            "return" => Act::Return { from: f.number(), to: f.number(), kind: f.value(Kind::of), amount: f.number() },
            "central" => Act::Central { from: f.number(), to: f.number(), kind: f.value(Kind::of), amount: f.number() },
            "surrender" => Act::Surrender { from: f.number(), kind: f.value(Kind::of), amount: f.number() },
            "delete" => Act::Delete { from: f.number(), kind: f.value(Kind::of), amount: f.number() },
            "reverse" => Act::Reverse { account: f.number(), record: f.number() },
            "create" => Act::Create { to: f.number(), kind: f.value(Kind::of), amount: f.number() },
            "distribute" => Act::Distribute { from: f.number(), kind: f.value(Kind::of), shares: shares(f) },
            "trust" => Act::Trust { account: f.number(), other: f.number() },
            "untrust" => Act::Untrust { account: f.number(), other: f.number() },
            "status" => Act::Status { account: f.number(), status: f.value(Status::of) },
            "emissions" => Act::Emissions { account: f.number(), year: f.number(), tonnes: f.number() },
            "assess" => Act::Assess { account: f.number(), year: f.number() },
            _ => unreachable!("the library has no act {word}"),
        }
    }
}

fn shares(fields: &mut Fields<'_>) -> Vec<Share> {
    let mut shares = Vec::new();
    loop {
        let mut ahead = fields.clone();
        match ahead.more() {
            Some("done" | "refused") | None => return shares,
            Some(to) => shares.push(Share { to: number(to), amount: ahead.number() }),
        }
        *fields = ahead;
    }
}

/// What somebody asked for.
#[derive(Clone, Debug, PartialEq, Eq, Hash)]
#[non_exhaustive]
pub struct Instruction {
    /// The day on which it was proposed.
    pub proposed: Date,
    /// The user who proposed it.
    pub proposer: u32,
    /// The user who approved it, if somebody did.
    pub approver: Option<u32>,
    /// What it asks for.
    pub act: Act,
}

impl Instruction {
    /// What `proposer` asked for on this day, approved by `approver` if somebody did.
    pub fn new(proposed: Date, proposer: u32, approver: Option<u32>, act: Act) -> Self {
        Instruction { proposed, proposer, approver, act }
    }

    pub(crate) fn read(fields: &mut Fields<'_>) -> Self {
        Instruction {
            proposed: fields.date(),
            proposer: fields.number(),
            approver: fields.number_if_any(),
            act: Act::read(fields),
        }
    }
}
