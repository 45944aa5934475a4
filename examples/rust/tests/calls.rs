//! What the crate answers, on the examples and on texts that are no day texts.

use registry::{Account, AccountKind, Act, Cause, Date, Day, Fault, Instruction, Kind, LogRow, Outcome};
use registry::{Period, Retired, Right, Rules, Share, Status};
use std::fs;
use std::path::{Path, PathBuf};
use std::thread;

fn top() -> PathBuf {
    Path::new(env!("CARGO_MANIFEST_DIR")).join("../..")
}

fn example(name: &str) -> Vec<u8> {
    fs::read(top().join("examples").join(name)).unwrap()
}

fn stored(name: &str) -> String {
    fs::read_to_string(top().join("cases/examples").join(name)).unwrap()
}

#[test]
fn a_day_is_settled() {
    let report = registry::settle(&example("morning-batch.csv")).unwrap();
    assert_eq!(report.text(), stored("morning-batch.stdout"));
    let done: Vec<u64> = report.log().filter(|row| row.is_done()).map(|row| row.record()).collect();
    assert_eq!(done, [48211, 48213, 48215]);
    let refused: Vec<&str> = report.log().filter_map(|row| row.refusal()).map(|own| own.name).collect();
    assert_eq!(refused[..2], ["SourceStatus", "DestinationStatus"]);
    assert!(report.book().next().unwrap().starts_with("account,"));
}

#[test]
fn no_report_is_longer() {
    for name in ["first-transfer", "morning-batch", "distribution", "compliance-year", "second-period"] {
        let day = example(&format!("{name}.csv"));
        assert!(registry::settle(&day).unwrap().text().len() <= registry::report_most(day.len()));
    }
    assert_eq!([0, 1, 1000].map(registry::report_most), [0, 8, 8000]);
    assert_eq!(registry::report_most(usize::MAX), usize::MAX);
}

#[test]
fn a_trial_is_the_log_of_the_report() {
    let day = example("morning-batch.csv");
    let log = registry::attempt(&day).unwrap();
    assert!(registry::settle(&day).unwrap().text().starts_with(log.text()));
    assert_eq!(log.rows().count(), 10);
    assert!(log.rows().all(|row| row.instruction().act.word() == "transfer"));
}

#[test]
fn other_questions_are_answered() {
    let day = example("morning-batch.csv");
    assert_eq!(registry::plan(&day).unwrap(), stored("morning-batch-plan.stdout").into_bytes());
    let statement = registry::statement(&day, 100210).unwrap();
    assert_eq!(statement, stored("morning-batch-statement.stdout").into_bytes());
    let numbers = registry::settle(&day).unwrap().accounts().map(|own| own.number).collect::<Vec<_>>();
    let each = numbers.into_iter().flat_map(|number| registry::statement(&day, number).unwrap());
    assert_eq!(registry::statements(&day).unwrap(), each.collect::<Vec<_>>());
    let figures = registry::figures(&example("compliance-year.csv")).unwrap();
    assert_eq!(figures, stored("compliance-year-figures.stdout").into_bytes());
    assert!(registry::totals(&day).unwrap().starts_with(b"totals,general,"));
}

#[test]
fn a_day_is_led_on() {
    let day = example("first-transfer.csv");
    let mut next = registry::next_day(&day, Date { year: 2025, month: 4, day: 1 }).unwrap();
    next.extend_from_slice(b"end\n");
    let (before, after) = (registry::settle(&day).unwrap(), registry::settle(&next).unwrap());
    assert_eq!(after.book().collect::<Vec<_>>(), before.book().collect::<Vec<_>>());
    assert_eq!(after.next_record(), before.next_record());
    for (year, day_of_month) in [(2025, 31), (2025, 99), (2101, 1)] {
        let none = registry::next_day(&day, Date { year, month: 3, day: day_of_month });
        assert_eq!(none, Err(Fault::NoNextDate));
    }
}

#[test]
fn faults_are_told() {
    let fault = registry::settle(&example("wrong-date.csv")).unwrap_err();
    assert_eq!(fault, Fault::Row { row: 12, cause: Cause::Date });
    assert_eq!(fault.to_string(), "row 12: date");
    let nothing = registry::settle(b"").unwrap_err();
    assert_eq!(nothing, Fault::Row { row: 1, cause: Cause::End });
    let day = example("morning-batch.csv");
    for nobody in [0, 5, u32::MAX] {
        assert_eq!(registry::statement(&day, nobody), Err(Fault::NoAccount(nobody)));
    }
}

#[test]
fn places_of_faults_are_told() {
    let place = registry::find_fault(&example("wrong-date.csv")).unwrap().unwrap();
    let field = place.field.unwrap();
    assert_eq!((place.row, place.cause, field.number, field.name.as_str()), (12, Cause::Date, 2, "PROPOSED"));
    let nothing = registry::find_fault(b"format,2\n").unwrap().unwrap();
    assert_eq!((nothing.row, nothing.cause, nothing.field), (2, Cause::End, None));
    assert_eq!(registry::find_fault(&example("first-transfer.csv")), Ok(None));
}

#[test]
fn questions_have_typed_rows() {
    let (day, text) = (example("morning-batch.csv"), stored("morning-batch-plan.stdout"));
    let day = Day::new(&day);
    let tasks = day.plan().unwrap();
    let arrows: usize = tasks.iter().map(|task| task.waits_for.len()).sum();
    assert_eq!(tasks.len(), text.lines().filter(|row| row.starts_with("task,")).count());
    assert_eq!(arrows, text.lines().filter(|row| row.starts_with("arrow,")).count());
    assert!(arrows > 0 && tasks.iter().all(|task| (task.level == 1) == task.waits_for.is_empty()));
    let statement = day.statement(100210).unwrap();
    assert_eq!(statement.text(), stored("morning-batch-statement.stdout"));
    let all = day.statements().unwrap();
    assert_eq!(all.len(), day.accounts().unwrap().len());
    assert!(all.contains(&statement));
    let report = day.settle().unwrap();
    assert_eq!(day.totals().unwrap(), report.totals().collect::<Vec<_>>());
    let year = example("compliance-year.csv");
    let figures = Day::new(&year).figures().unwrap();
    let after: Vec<i64> =
        Day::new(&year).settle().unwrap().accounts().flat_map(|own| own.figures.into_values()).collect();
    assert_eq!(figures.iter().map(|own| own.figure).collect::<Vec<_>>(), after);
}

#[test]
fn days_are_written_as_they_were_read() {
    for name in ["first-transfer", "morning-batch", "distribution", "compliance-year", "second-period", "after-easter"]
    {
        let text = example(&format!("{name}.csv"));
        let day = Day::new(&text);
        let again = registry::write_day(&day.rules().unwrap(), &day.accounts().unwrap(), &day.instructions().unwrap());
        assert_eq!(String::from_utf8(again), String::from_utf8(text), "{name}");
    }
    let text = fs::read(top().join("cases/books/every-row-and-act.csv")).unwrap();
    let day = Day::new(&text);
    let again = registry::write_day(&day.rules().unwrap(), &day.accounts().unwrap(), &day.instructions().unwrap());
    assert_eq!(String::from_utf8(again), String::from_utf8(text));
    let quoted =
        b"\xef\xbb\xbfformat,\"2\"\r\n\r\nday,2025-03-31,\"1\"\rperiod,2021,2030\ncurrent,1\nlags,0,1,1,2\nend";
    let day = Day::new(quoted);
    let plain = b"format,2\nday,2025-03-31,1\nperiod,2021,2030\ncurrent,1\nlags,0,1,1,2\nend\n";
    assert_eq!(registry::write_day(&day.rules().unwrap(), &[], &[]), plain);
}

#[test]
fn totals_may_have_more_than_64_bits() {
    let day = Date { year: 2025, month: 3, day: 31 };
    let rules = Rules::new(day, 1, Period { first: 2021, last: 2030 });
    let most = 1_000_000_000_000_000;
    let account = |number| {
        let mut own = Account::new(number, AccountKind::Trading, 7);
        own.general = most;
        own
    };
    let accounts: Vec<Account> = (1..=20_000).map(account).collect();
    let text = registry::write_day(&rules, &accounts, &[]);
    assert_eq!(Day::new(&text).totals().unwrap()[0].held, 20_000 * u128::from(most));
}

/// Numbers that are drawn, the same in each run.
struct Drawn(u64);

impl Drawn {
    fn below(&mut self, most: u64) -> u64 {
        self.0 = self.0.wrapping_mul(6364136223846793005).wrapping_add(1442695040888963407);
        (self.0 >> 33) % most
    }

    fn day(&mut self) -> Date {
        Date { year: 2021 + self.below(80) as u16, month: 1 + self.below(12) as u8, day: 1 + self.below(28) as u8 }
    }

    fn one_of<T: Copy>(&mut self, values: &[T]) -> T {
        values[self.below(values.len() as u64) as usize]
    }

    fn account(&mut self, number: u32) -> Account {
        let mut own = Account::new(number, self.one_of(&[AccountKind::Operator, AccountKind::Trading]), 7);
        own.status = self.one_of(&[Status::Open, Status::Blocked, Status::Excluded, Status::Closed]);
        (own.allows_outside, own.has_waiver) = (self.below(2) == 1, self.below(2) == 1);
        (own.general, own.aviation) = (self.below(1_000_000), self.below(1_000_000));
        own.corrections = [(1, self.below(99) as i64 - 50), (2, 1 + self.below(9) as i64)].into();
        own.users = (0..self.below(4)).map(|n| (200 - n as u32, self.one_of(&[Right::Propose, Right::Both]))).collect();
        own.trusted = (0..self.below(4)).map(|n| (400 - n as u32, self.day())).collect();
        own.emissions = (0..self.below(4)).map(|n| (2030 - n as u16, self.below(999))).collect();
        own.figures = (0..self.below(4)).map(|n| (2030 - n as u16, self.below(999) as i64 - 500)).collect();
        for record in (1..=self.below(4)).rev() {
            let period = self.one_of(&[None, Some(1), Some(2)]);
            let (kind, amount) = (self.one_of(&[Kind::General, Kind::Aviation]), 1 + self.below(999));
            let (day, is_reversed) = (self.day(), self.below(2) == 1);
            own.retired.insert(0, Retired { record, period, kind, amount, day, is_reversed });
        }
        own
    }

    fn act(&mut self) -> Act {
        let (from, to, amount) = (1 + self.below(9) as u32, 1 + self.below(9) as u32, self.below(99));
        let (kind, year) = (self.one_of(&[Kind::General, Kind::Aviation]), 2021 + self.below(80) as u16);
        let shares = || (0..1 + amount % 8).map(|n| Share { to: 1 + n as u32, amount: n }).collect();
        match self.below(13) {
            0 => Act::Transfer { from, to, kind, amount },
            1 => Act::Return { from, to, kind, amount },
            2 => Act::Surrender { from, kind, amount },
            3 => Act::Delete { from, kind, amount },
            4 => Act::Reverse { account: from, record: 1 + amount },
            5 => Act::Create { to, kind, amount },
            6 => Act::Central { from, to, kind, amount },
            7 => Act::Distribute { from, kind, shares: shares() },
            8 => Act::Trust { account: from, other: to },
            9 => Act::Untrust { account: from, other: to },
            10 => Act::Status { account: from, status: self.one_of(&[Status::Open, Status::Closed]) },
            11 => Act::Emissions { account: from, year, tonnes: amount },
            _ => Act::Assess { account: from, year },
        }
    }
}

#[test]
fn drawn_days_are_read_as_they_were_built() {
    let mut drawn = Drawn(103);
    for _ in 0..500 {
        let periods = [Period { first: 2021, last: 2030 }, Period { first: 2031, last: 2040 }];
        let mut rules = Rules::new(drawn.day(), 100 + drawn.below(1000), periods[0]);
        rules.periods.push(periods[1]);
        (rules.current, rules.trusted_lag, rules.list_lag) = (2, drawn.below(9) as u16, drawn.below(9) as u16);
        rules.surrender = vec![(AccountKind::Operator, Kind::Aviation), (AccountKind::Aircraft, Kind::General)];
        rules.admins = (1..=drawn.below(4) as u32).collect();
        rules.working_days = (1..=1 + drawn.below(9) as u8).map(|day| Date { year: 2025, month: 3, day }).collect();
        let accounts: Vec<Account> = (1..=drawn.below(6) as u32).map(|number| drawn.account(number)).collect();
        let asked: Vec<Instruction> = (0..drawn.below(6))
            .map(|_| Instruction::new(drawn.day(), 101, drawn.one_of(&[None, Some(102)]), drawn.act()))
            .collect();
        let text = registry::write_day(&rules, &accounts, &asked);
        let day = Day::new(&text);
        assert_eq!(registry::find_fault(&text), Ok(None));
        assert_eq!((day.rules(), day.accounts(), day.instructions()), (Ok(rules), Ok(accounts), Ok(asked)));
    }
}

#[test]
fn threads_settle_at_once() {
    let names = ["first-transfer", "morning-batch", "compliance-year", "second-period"];
    thread::scope(|scope| {
        for name in names.iter().cycle().take(8) {
            scope.spawn(move || {
                let day = example(&format!("{name}.csv"));
                for _ in 0..50 {
                    assert_eq!(registry::settle(&day).unwrap().text(), stored(&format!("{name}.stdout")));
                }
            });
        }
    });
}

#[test]
fn words_are_told() {
    assert_eq!(registry::version(), env!("CARGO_PKG_VERSION").trim_end_matches(".0"));
    let words: Vec<&str> = Cause::ALL.iter().map(|cause| cause.word()).collect();
    assert_eq!(words, ["end", "tag", "fields", "number", "date", "word", "version", "limit", "order"]);
    assert_eq!(registry::refusal_word(18), "NotEnough");
    let told = |code: &u32| !registry::refusal_word(*code).is_empty();
    let last = (1..).take_while(told).last().expect("a check");
    assert!(last > 18 && (1..=last).all(|code| registry::refusal_sentence(code).ends_with('.')));
    for nothing in [0, last + 1, u32::MAX] {
        assert_eq!(registry::refusal_word(nothing) + &registry::refusal_sentence(nothing), "");
    }
}

// ---- typed rows, spelled again

fn spelled_act(act: &Act) -> String {
    let word = act.word();
    match act {
        Act::Transfer { from, to, kind, amount }
        | Act::Return { from, to, kind, amount }
        | Act::Central { from, to, kind, amount } => format!("{word},{from},{to},{kind},{amount}"),
        Act::Surrender { from, kind, amount } | Act::Delete { from, kind, amount } => {
            format!("{word},{from},{kind},{amount}")
        }
        Act::Reverse { account, record } => format!("{word},{account},{record}"),
        Act::Create { to, kind, amount } => format!("{word},{to},{kind},{amount}"),
        Act::Distribute { from, kind, shares } => {
            let shares: String = shares.iter().map(|own| format!(",{},{}", own.to, own.amount)).collect();
            format!("{word},{from},{kind}{shares}")
        }
        Act::Trust { account, other } | Act::Untrust { account, other } => format!("{word},{account},{other}"),
        Act::Status { account, status } => format!("{word},{account},{status}"),
        Act::Emissions { account, year, tonnes } => format!("{word},{account},{year},{tonnes}"),
        Act::Assess { account, year } => format!("{word},{account},{year}"),
        _ => panic!("an act that this test does not know"),
    }
}

fn or_nothing(value: Option<impl ToString>) -> String {
    value.map_or(String::new(), |value| value.to_string())
}

fn spelled_log_row(row: LogRow<'_>) -> String {
    let asked = row.instruction();
    let outcome = match row.outcome() {
        Outcome::Done { figure, closing } => {
            let held = closing.iter().map(|own| format!(",{},{},{}", own.account, own.general, own.aviation));
            format!("done,{}{}", or_nothing(figure), held.collect::<String>())
        }
        Outcome::Refused(why) => format!("refused,{},{}", why.code, why.name),
        _ => panic!("an outcome that this test does not know"),
    };
    let (approver, act) = (or_nothing(asked.approver), spelled_act(&asked.act));
    format!("log,{},{},{},{},{approver},{act},{outcome}", row.record(), row.day(), asked.proposed, asked.proposer)
}

fn yes(is_so: bool) -> &'static str {
    if is_so {
        "yes"
    } else {
        "no"
    }
}

fn spelled_account(own: &Account) -> Vec<String> {
    let (number, kind, holder, status) = (own.number, own.kind, own.holder, own.status);
    let (outside, waiver, first) = (yes(own.allows_outside), yes(own.has_waiver), own.corrections[&1]);
    let (general, aviation) = (own.general, own.aviation);
    let head = format!("account,{number},{kind},{holder},{status},{outside},{waiver},{first},{general},{aviation}");
    let later = own.corrections.range(2..).map(|(period, factor)| format!("correction,{period},{factor}"));
    let users = own.users.iter().map(|(user, right)| format!("user,{user},{right}"));
    let trusted = own.trusted.iter().map(|(other, day)| format!("trusted,{other},{day}"));
    let retired = own.retired.iter().map(|each| {
        let what = if each.period.is_some() { "surrender" } else { "deletion" };
        let later = or_nothing(each.period.filter(|period| *period > 1).map(|period| format!(",{period}")));
        let (record, kind, amount, day, back) = (each.record, each.kind, each.amount, each.day, yes(each.is_reversed));
        format!("retired,{record},{what},{kind},{amount},{day},{back}{later}")
    });
    let emissions = own.emissions.iter().map(|(year, tonnes)| format!("emissions,{year},{tonnes}"));
    let figures = own.figures.iter().map(|(year, tonnes)| format!("figure,{year},{tonnes}"));
    let lists = later.chain(users).chain(trusted).chain(retired).chain(emissions).chain(figures);
    [head].into_iter().chain(lists).collect()
}

#[test]
fn typed_rows_say_all_that_the_text_says() {
    let days = ["cases/books/every-row-and-act.csv", "examples/second-period.csv", "examples/distribution.csv"];
    for name in days.iter().chain(&["examples/compliance-year.csv", "examples/morning-batch.csv"]) {
        let report = registry::settle(&fs::read(top().join(name)).unwrap()).unwrap();
        let rows: Vec<&str> = report.log().map(|row| row.row()).collect();
        assert!(!rows.is_empty());
        assert_eq!(report.log().map(spelled_log_row).collect::<Vec<_>>(), rows, "{name}");
        let book: Vec<String> = report.accounts().flat_map(|own| spelled_account(&own)).collect();
        assert_eq!(book, report.book().collect::<Vec<_>>(), "{name}");
        let held = report.accounts().map(|own| u128::from(own.general)).sum::<u128>();
        assert_eq!(report.totals().map(|own| own.held).next(), Some(held));
        assert_eq!(report.log().last().map(|row| row.record() + 1), Some(report.next_record()));
    }
}
