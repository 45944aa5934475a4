use crate::account::{Account, Retired};
use crate::instruction::{Act, Instruction};
use crate::rules::Rules;
use std::fmt::{self, Write};

/// The text of a day with these rules, accounts and instructions. Accounts, and the rows of lists, are written by their
/// rising keys. What is outside a limit is written all the same: a call with the text tells the first fault.
///
/// ```
/// use registry::{Account, AccountKind, Act, Date, Instruction, Kind, Period, Right, Rules};
///
/// let day = Date { year: 2025, month: 3, day: 31 };
/// let mut rules = Rules::new(day, 1, Period { first: 2021, last: 2030 });
/// rules.working_days.push(day);
/// let mut from = Account::new(1, AccountKind::Trading, 11);
/// (from.general, from.allows_outside) = (100, true);
/// from.users.extend([(101, Right::Propose), (102, Right::Approve)]);
/// let to = Account::new(2, AccountKind::Trading, 12);
/// let act = Act::Transfer { from: 1, to: 2, kind: Kind::General, amount: 40 };
/// let asked = Instruction::new(day, 101, Some(102), act);
/// let text = registry::write_day(&rules, &[from, to], &[asked]);
/// let report = registry::settle(&text)?;
/// assert!(report.log().all(|row| row.is_done()));
/// assert_eq!(report.accounts().map(|own| own.general).collect::<Vec<_>>(), [60, 40]);
/// # Ok::<(), Box<dyn std::error::Error>>(())
/// ```
pub fn write_day(rules: &Rules, accounts: &[Account], instructions: &[Instruction]) -> Vec<u8> {
    let mut text = String::new();
    // (a string takes what it is given)
    write_all(&mut text, rules, accounts, instructions).unwrap_or_default();
    text.into_bytes()
}

fn write_all(to: &mut String, rules: &Rules, accounts: &[Account], instructions: &[Instruction]) -> fmt::Result {
    write_rules(to, rules)?;
    let mut rising: Vec<&Account> = accounts.iter().collect();
    rising.sort_by_key(|own| own.number);
    for own in rising {
        write_account(to, own)?;
    }
    for own in instructions {
        write_instruction(to, own)?;
    }
    to.write_str("end\n")
}

fn write_rules(to: &mut String, own: &Rules) -> fmt::Result {
    writeln!(to, "format,{}\nday,{},{}", own.version, own.day, own.next_record)?;
    for period in &own.periods {
        writeln!(to, "period,{},{}", period.first, period.last)?;
    }
    if own.version > 1 {
        writeln!(to, "current,{}", own.current)?;
    }
    let (trusted, other, list, window) = (own.trusted_lag, own.other_lag, own.list_lag, own.reversal_window);
    writeln!(to, "lags,{trusted},{other},{list},{window}")?;
    let mut pairs = own.surrender.clone();
    pairs.sort_by_key(|(account, kind)| (account.rank(), *kind));
    for (account, kind) in pairs {
        writeln!(to, "surrender,{account},{kind}")?;
    }
    let (mut admins, mut days) = (own.admins.clone(), own.working_days.clone());
    admins.sort_unstable();
    days.sort_unstable();
    admins.iter().try_for_each(|user| writeln!(to, "admin,{user}"))?;
    days.iter().try_for_each(|day| writeln!(to, "work,{day}"))
}

fn yes(is_so: bool) -> &'static str {
    if is_so {
        "yes"
    } else {
        "no"
    }
}

fn write_account(to: &mut String, own: &Account) -> fmt::Result {
    let (number, kind, holder, status) = (own.number, own.kind, own.holder, own.status);
    let (outside, waiver) = (yes(own.allows_outside), yes(own.has_waiver));
    let (first, general, aviation) = (own.corrections.get(&1).copied().unwrap_or(0), own.general, own.aviation);
    writeln!(to, "account,{number},{kind},{holder},{status},{outside},{waiver},{first},{general},{aviation}")?;
    for (period, factor) in own.corrections.iter().filter(|(period, _)| **period != 1) {
        writeln!(to, "correction,{period},{factor}")?;
    }
    own.users.iter().try_for_each(|(user, right)| writeln!(to, "user,{user},{right}"))?;
    own.trusted.iter().try_for_each(|(other, day)| writeln!(to, "trusted,{other},{day}"))?;
    let mut retired: Vec<&Retired> = own.retired.iter().collect();
    retired.sort_by_key(|each| each.record);
    retired.into_iter().try_for_each(|each| write_retired(to, each))?;
    own.emissions.iter().try_for_each(|(year, tonnes)| writeln!(to, "emissions,{year},{tonnes}"))?;
    own.figures.iter().try_for_each(|(year, figure)| writeln!(to, "figure,{year},{figure}"))
}

fn write_retired(to: &mut String, own: &Retired) -> fmt::Result {
    let what = if own.period.is_some() { "surrender" } else { "deletion" };
    let (record, kind, amount, day, reversed) = (own.record, own.kind, own.amount, own.day, yes(own.is_reversed));
    write!(to, "retired,{record},{what},{kind},{amount},{day},{reversed}")?;
    match own.period {
        // (the first period is not written)
        Some(period) if period != 1 => writeln!(to, ",{period}"),
        _ => writeln!(to),
    }
}

/// The row of an instruction, with its end.
pub(crate) fn row_of(own: &Instruction) -> String {
    let mut row = String::new();
    // (a string takes what it is given)
    write_instruction(&mut row, own).unwrap_or_default();
    row
}

fn write_instruction(to: &mut String, own: &Instruction) -> fmt::Result {
    write!(to, "do,{},{},", own.proposed, own.proposer)?;
    if let Some(approver) = own.approver {
        write!(to, "{approver}")?;
    }
    write!(to, ",{},", own.act.word())?;
    write_act(to, &own.act)?;
    writeln!(to)
}

fn write_act(to: &mut String, act: &Act) -> fmt::Result {
    match act {
        Act::Transfer { from, to: other, kind, amount }
        | Act::Return { from, to: other, kind, amount }
        | Act::Central { from, to: other, kind, amount } => write!(to, "{from},{other},{kind},{amount}"),
        Act::Surrender { from: own, kind, amount }
        | Act::Delete { from: own, kind, amount }
        | Act::Create { to: own, kind, amount } => write!(to, "{own},{kind},{amount}"),
        Act::Reverse { account, record } => write!(to, "{account},{record}"),
        Act::Distribute { from, kind, shares } => {
            write!(to, "{from},{kind}")?;
            shares.iter().try_for_each(|share| write!(to, ",{},{}", share.to, share.amount))
        }
        Act::Trust { account, other } | Act::Untrust { account, other } => write!(to, "{account},{other}"),
        Act::Status { account, status } => write!(to, "{account},{status}"),
        Act::Emissions { account, year, tonnes } => write!(to, "{account},{year},{tonnes}"),
        Act::Assess { account, year } => write!(to, "{account},{year}"),
    }
}
