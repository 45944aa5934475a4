"""Settles the next day of a folder, and files it: its text is made of the last day and of what was handed in, an engine
settles it, and the second answer works out the log once more and the accounts that the day touches; all others have to
stand as before."""
import datetime
import re
from collections import Counter
from collections.abc import Iterator
from dataclasses import dataclass

from registry_tools import voice
from registry_tools.calendars.due_days import NOT_DUE
from registry_tools.engine import confirm_figures
from registry_tools.errors import WordsFault, raise_first
from registry_tools.notes import LOOK, counted, worth_telling
from registry_tools.office import approvals, composing, intake, trial
from registry_tools.pairs import settlement
from registry_tools.office.approvals import AskedFor
from registry_tools.office.composing import NextDay
from registry_tools.office.intake import HandedIn, Part
from registry_tools.office.office import By, Office
from registry_tools.office.program import named_program
from registry_tools.office.waits import waits_text
from registry_tools.pairs.compliance import compliant_share, last_year_over, standing_of, years_over
from registry_tools.pairs.verify import expected_rows, first_difference, settled_again
from registry_tools.second import rules
from registry_tools.store import daybook
from registry_tools.store.events import FILED, Event
from registry_tools.store.past import PastDay
from registry_tools.texts.books import Sums, sums_of, sums_told
from registry_tools.texts.day_text import DayText
from registry_tools.texts.follows import differences_of_totals, must_follow
from registry_tools.texts.in_words import grouped
from registry_tools.texts.report import Report, report_of
from registry_tools.texts.rows import rows_of_text
from registry_tools.texts.runs import unlike
from registry_tools.texts.settler import SECOND_ANSWER, Engine

# An instruction that closes an account.
CLOSES = re.compile(rb"^do,.*,status,[0-9]+,closed$", re.MULTILINE)


@dataclass(frozen=True)
class Close:
    """What is closed: the settlement day, whether the second answer settles in place of the program, whether all
    accounts are worked out once more, and whether the day is filed whatever is to be looked at."""

    date: datetime.date | None
    by_second: bool = False
    verifies: bool = False
    yes: bool = False


@dataclass(frozen=True)
class Settled:
    """A day that is to be filed, with its report."""

    composed: NextDay
    day: DayText
    report: Report
    report_text: bytes
    engine: Engine
    # The day as the daybook has it, with the day before.
    past_day: PastDay


@dataclass(frozen=True)
class Closed:
    """A day is settled and filed: its event, what came of it, and what of what was handed in is left for later."""

    event: Event
    settled: Settled
    outcome: "Outcome"
    left: list[str]


@dataclass(frozen=True)
class Doubts:
    """A day is not filed: what is to be looked at first."""

    date: datetime.date
    lines: list[str]


def close(office: Office, by: By, asked: Close) -> Closed | Doubts | AskedFor:
    """Settles and files a day behind the last one; if office.ini names no program, `./run` may build one first. Raises
    WordsFault if it is no such day, FileFault if something can't be in it or settle it, or the report is wrong."""
    with office.changing("close", by):
        handed_in = approvals.handed_in_of(office)
        if asked.date is None:
            comes = composing.settlement_date(office, handed_in)
            raise WordsFault("name the day", f"{voice.command('close', '--date', comes)} closes the next one")
        with composing.telling_the_way_out():
            left = left_for_later(handed_in, asked.date)
            composed = composing.compose(office, handed_in.until(asked.date), asked.date)
        if not asked.yes and any(note.startswith(LOOK) for note in (*composed.notes, *left)):
            return Doubts(asked.date, [*worth_telling(composed.notes), *left])
        words, result = "--second" if asked.by_second else "", composed.sum()
        office.must_be_as_shown(by, [result])
        # (whoever only asks for it is told, too)
        early = settle(office, composed, asked.by_second, asked.verifies) if CLOSES.search(composed.text) else None
        if early and not asked.yes and (doubts := [*closed_with_more(early)]):
            return Doubts(asked.date, [*worth_telling(composed.notes), *doubts])
        approved = approvals.let_through(office, "close", asked.date, words, result)
        if isinstance(approved, AskedFor):
            return approved
        settled = early or settle(office, composed, asked.by_second, asked.verifies)
        event = file_day(office, settled, approved)
        later = [part for part in handed_in.parts if handed_in.is_left(part, asked.date)]
        hand_in_again(office, handed_in, later)
    return Closed(event, settled, outcome_of_day(settled), left)


def closed_with_more(settled: Settled) -> Iterator[str]:
    """Tells of each account that the day closes, if it still holds something, something of it waits, or something is
    missing for it: no act is done on a closed account any more."""
    left = [waits.instruction for waits in settled.composed.waiting if not waits.entered]
    left += [row.instruction for row in settled.report.log if row.name == NOT_DUE]
    for row in settled.report.log:
        i = row.instruction
        if not row.is_done or i.act != "status" or i.status != "closed":
            continue
        account = settled.report.book[i.first].account()
        told = [f"it holds {grouped(amount)} {kind} allowances" for kind, amount in account.held.items() if amount]
        waiting = sum(account.number in rules.named(each) for each in left)
        if waiting:
            told.append(counted(waiting, "instruction that names it waits", "instructions that name it wait"))
        told += [f"{grouped(amount)} are missing for {year}" for year, amount in missing_of(settled.day.head, account)]
        if told:
            yield f"{LOOK}: account {account.number} is closed for good: {', '.join(told)}"


def missing_of(head: rules.Day, account: rules.Account) -> Iterator[tuple[int, int]]:
    """What an operator lacks for the last year that is over of each period, with the year."""
    for years in years_over(head) if account.kind in rules.OPERATORS else ():
        missing = standing_of(head, account, years[-1]).missing
        if missing:
            yield years[-1], missing


def left_for_later(handed_in: HandedIn, date: datetime.date) -> list[str]:
    """Tells what was handed in and does not come into the day, since it waits for another login, or is of a later one
    that was undone."""
    left = []
    places = [intake.places(part.start, part.end) for part in handed_in.waiting]
    if places:
        waits = f"waits for another login: {', '.join(places)}; see {voice.command('approve')}"
        left.append(f"{LOOK}: not in this day, and {waits}")
    items = [item for item in handed_in.items(*intake.KINDS) if item.part.is_of_later(date)]
    if items:
        first = min(item.part.earliest for item in items if item.part.earliest)
        more = f"handed in for {first} or later: {len(items)}; {voice.command('status')} shows them"
        left.append(f"{LOOK}: not in this day, and {more}")
    return left


def hand_in_again(office: Office, old: HandedIn, parts: list[Part]) -> None:
    """Hands in again, behind a day that was filed or undone, what is left of these parts."""
    trial.forget(office)
    intake.put_left(office, HandedIn(office.store), old, parts)


# Settling it.


def settle(office: Office, composed: NextDay, by_second: bool, verifies: bool = False) -> Settled:
    """Settles the day, and looks whether the report is that of the day and what the rules make of it."""
    day = composed.day(voice.path(f"{office.store.path}/{composed.date}/day.csv"))
    program = "" if by_second else named_program(office)
    text = settlement.by_rules(day) if by_second else settlement.by_engine(program, composed.text)
    engine = SECOND_ANSWER if by_second else settlement.engine_of(program)
    whose = "the second answer" if by_second else program or "the program"
    source = rows_of_text(f"the report of {whose}", text.decode("utf-8", "surrogateescape"))
    report = report_of(source, day)
    before = composed.before
    past_day = PastDay(day, report, before and before[1], before[0].heading if before else [])
    sums = past_day.sums()
    if by_second:
        raise_first(differences_of_totals(report, sums))
    elif verifies or office.settings.verifies:
        must_follow(day, report, sums)
        raise_first([first_difference(source, expected_rows(day))])
    else:
        must_be_of_the_rules(day, report, sums)
    return Settled(composed, day, report, text, engine, past_day)


def must_be_of_the_rules(day: DayText, report: Report, sums: dict[str, Sums]) -> None:
    """Ends the command if a report is not what the rules make of a day: of its log, and of the accounts that it
    touches; all others have to stand as before. Each instruction is worked out once."""
    settled, log = settled_again(day)
    if is_of_the_rules(day, report, settled, log) and not [*differences_of_totals(report, sums)]:
        return
    # (what does not follow from the day is told first)
    must_follow(day, report, sums)
    raise_first([first_difference(report.source, expected_rows(day))])


def is_of_the_rules(day: DayText, report: Report, settled: rules.Day, log: list[rules.Logged]) -> bool:
    """Whether the log of a report, the accounts that it touches, and those that it does not touch are what the rules
    make of a day."""
    if report.next_record != day.head.next_record + len(log) or day.book.keys() != report.book.keys():
        return False
    if report.source.rows[: len(report.log)] != [logged.line for logged in log]:
        return False
    touched = {number for logged in log for number in logged.held}
    if any(report.book[number].rows != [*rules.account_rows(settled.accounts[number])] for number in touched):
        return False
    others = {*unlike(day.book, report.book, report.others)} - touched
    return all(day.book[number].rows == report.book[number].rows for number in others)


# Filing it.


def file_day(office: Office, settled: Settled, approved: str) -> Event:
    """Files a settled day, in a change of the folder, and answers its event."""
    composed, texts = settled.composed, office.store.texts
    day, report = settled.day, settled.report
    event = office.add(
        FILED, date=composed.date, first=day.head.next_record, next=report.next_record, approved=approved,
        engine=settled.engine.row(), text=texts.put(composed.text), report=texts.put(settled.report_text),
        waiting=texts.put(composed.waiting_text()), waits=texts.put(waits_text(day, report, composed.pending_file())),
    )  # fmt: skip
    daybook.add_day(office.store.db, settled.past_day, (event.text, event.report))
    return event


# What came of it.


@dataclass(frozen=True)
class Outcome:
    """What comes of a day: what is told at its end, or shown before."""

    date: datetime.date
    # Its first record number, and the one behind its last.
    first: int
    next: int
    done: int
    # How many instructions each check refused.
    refused: dict[str, int]
    waiting: int
    # The sums over all accounts, by kind.
    before: dict[str, Sums]
    after: dict[str, Sums]
    # What is worth telling of how the text was made.
    notes: list[str]
    # The last year that is over, with how many operators are compliant for it, of how many; None, if there is none.
    compliant: tuple[int, int, int] | None


def outcome_of_day(settled: Settled) -> Outcome:
    """What came of a settled day, as it is told."""
    day, report = settled.day, settled.report
    refused = Counter(row.name for row in report.log if not row.is_done and row.name != NOT_DUE)
    done, waiting = sum(logged.is_done for logged in report.log), waiting_after(settled)
    notes = [*worth_telling(settled.composed.notes), *closed_with_more(settled)]
    compliant = compliance_share(settled)
    first, behind = day.head.next_record, report.next_record
    before = settled.composed.before
    # (nobody changes by hand what accounts hold, have surrendered or have deleted)
    sums = sums_told(before[1]) if before else sums_of(day.book_rows), sums_told(report)
    return Outcome(day.head.date, first, behind, done, refused, waiting, *sums, notes, compliant)


def waiting_after(settled: Settled) -> int:
    """How many instructions wait after the day: those that waited and were not entered, and those that it refused as
    not due."""
    left = sum(not waits.entered for waits in settled.composed.waiting)
    return left + sum(logged.name == NOT_DUE for logged in settled.report.log)


def compliance_share(settled: Settled) -> tuple[int, int, int] | None:
    """How many operators are compliant for the last year that is over, if there is one. Raises FileFault if the second
    answer settled alone, and the library was built and determines other figures."""
    try:
        year = last_year_over(settled.day.head)
    except WordsFault:
        return None
    if settled.engine == SECOND_ANSWER:
        # (of an engine, the second answer has worked out each figure that the day touches)
        confirm_figures(settled.day, settled.report)
    return year, *compliant_share(settled.day, settled.report, year)
