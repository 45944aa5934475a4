"""The text of a day that follows from another one and its report: its heading, calendar, accounts and instructions, and
what waits behind it."""
import dataclasses
import datetime
from collections.abc import Collection, Iterator
from dataclasses import dataclass

from registry_tools import tables, voice
from registry_tools.calendars.due_days import NOT_DUE, due_day_after, is_due
from registry_tools.calendars.working_days import days_in_words, look_at_calendar, next_calendar
from registry_tools.errors import FileFault, RowFault, WordsFault, of_file, raise_first
from registry_tools.notes import BY_HAND, ROW, Notes
from registry_tools.second import faults, rules
from registry_tools.texts import changes as made, pending
from registry_tools.texts.accounts import Accounts, Block
from registry_tools.texts.changes import refusals
from registry_tools.texts.day_text import DayText, read_blocks, read_rows_of
from registry_tools.texts.follows import read_pair
from registry_tools.texts.repeated import Handed, tell_dates, tell_repeated
from registry_tools.texts.report import Report
from registry_tools.texts.rows import Rows, begins_with

OUTSIDE = rules.name_of(rules.outside_calendar)


# The accounts.


def book_with_changes(
    day: DayText, report: Report, given: str | Rows | None, notes: Notes, periods: list[tuple[int, int]] | None = None
) -> dict[int, Block]:
    """The book of the next day, with the blocks of a file, or of rows that were read. The periods are those of DAY, if
    no others are named."""
    if given is None:
        return report.book
    path = given.path if isinstance(given, Rows) else given
    changes = read_changes(day, report, given, periods or day.head.periods)
    for number, block in changes.items():
        old = report.book.get(number)
        raise_first(refusals(old, block))
        tell_change(report, old, block, notes)
    if all(number in report.book and report.book[number].rows == block.rows for number, block in changes.items()):
        notes.warn(f"{path}: nothing of this file was applied: {len(changes)} accounts, and none is new or another one")
    both = {**report.book, **changes}
    if len(both) > faults.MOST["account"]:
        raise of_file(path, f"with it there are {len(both)} accounts, and at most {faults.MOST['account']} may be")
    return dict(sorted(both.items()))


def read_changes(
    day: DayText, report: Report, given: str | Rows, periods: list[tuple[int, int]]
) -> dict[int, Block]:
    """The accounts of a file of changes. One that names a period which the day does not have is told what the day
    lacks."""
    years = [last for _, last in periods]
    reading = faults.Reading(last="work", version=2, next_record=report.next_record, last_years=years)
    try:
        return read_blocks(given, reading)
    except RowFault as fault:
        if fault.field != "PERIOD":
            raise
        count = "1 period" if len(years) == 1 else f"{len(years)} periods"
        expected = f"a period of the day, and {day.path} has {count}"
        way = (
            "add the row of that period to it, and in version 1 also format,2 and current,1; in a folder, "
            f"{voice.command('change', '--period')} does so (see docs/FORMATS.md#from-version-1-to-version-2)"
        )
        raise FileFault(fault.path, fault.line, fault.field, fault.found, expected, way) from None


def tell_change(report: Report, old: Block | None, new: Block, notes: Notes) -> None:
    """Tells what a block of the changes changes, row by row."""
    where = f"{new.source.path}:{new.line}"
    if old is None:
        notes.add(f"{BY_HAND}: {where}: account {new.number} is new")
    elif old.rows == new.rows:
        notes.add(f"{BY_HAND}: {where}: account {new.number} stays as it is")
    else:
        notes.add(f"{BY_HAND}: {where}: account {new.number}, which stands in {report.path}:{old.line}")
        notes.lines += [f"{ROW}{change.words}" for change in made.rows_changed(new.number, old.rows, new.rows)]


# The instructions.


def waiting_after(
    day: DayText, report: Report, file: pending.PendingFile | None, date: datetime.date, notes: Notes
) -> list[pending.Waiting]:
    """The instructions that wait after the day: those of the pending file, and those that the day refused as NotDue."""
    waiting = []
    if file:
        found = pending.still_waiting(file, day, report, date)
        notes.warn(*found.warnings)
        lost = f"this was entered into {day.path}, which does not have it"
        notes.warn(*(f"{waiting_row.place}: {lost}: {waiting_row.instruction.row}" for waiting_row in found.lost))
        waiting += found.waiting
    not_due = (row for row in report.log if row.name == NOT_DUE)
    places = ((row, f"{report.path}:{row.line}") for row in not_due)
    return waiting + [pending.Waiting(row.record, row.instruction, place=place) for row, place in places]


def enter_due(head: rules.Day, waiting: list[pending.Waiting], notes: Notes) -> list[pending.Waiting]:
    """Marks those that are due on the day as entered, and gives each other one its due day."""
    for waits in waiting:
        if is_due(head, waits.instruction):
            waits.entered = head.date
            continue
        waits.due = due_day_after(head, waits.instruction)
        if waits.due is None:
            notes.warn(f"the calendar has no due day for this, which goes on waiting: {waits.instruction.row}")
    return [waits for waits in waiting if waits.entered]


def new_instructions(given: str | Rows | None, report: Report, count: int) -> Rows:
    """The `do` rows of a file, or rows that were read; so many stand before them."""
    if given is None:
        return Rows("", [], [])
    return read_rows_of("do", given, faults.Reading(last="do", next_record=report.next_record, counts={"do": count}))


def tell_refused(report: Report, notes: Notes) -> None:
    """Tells what the day refused, and nobody enters again."""
    for logged in (row for row in report.log if row.name == OUTSIDE):
        again = f"Add working days and enter it again: {logged.instruction.row}"
        notes.warn(f"{report.path}:{logged.line}: refused as {OUTSIDE}. {again}")
    others = sum(not logged.is_done and logged.name not in (NOT_DUE, OUTSIDE) for logged in report.log)
    each = f" ({voice.command('log', '--refused')} shows each)" if others else ""
    notes.add(f"refused by {report.path} for other reasons: {others}{each}")


# All together.


def heading_of(day: DayText, date: datetime.date, next_record: int, calendar: list[datetime.date]) -> Iterator[str]:
    """The rows before the accounts."""
    for row in day.heading:
        if row.startswith("day,"):
            yield f"day,{date},{next_record}"
        elif not row.startswith("work,"):
            yield row
    yield from (f"work,{working}" for working in calendar)


def later_date(date: datetime.date, day: DayText) -> datetime.date:
    """A date that is later than the day. Raises WordsFault if it is not."""
    if date <= day.head.date:
        raise WordsFault(f"--date {date} is not later than {day.head.date}, the day of {day.path}")
    return date


def in_order(first: str, second: str, notes: Notes) -> tuple[str, str]:
    """The paths of the day and of its report, also if they are named the other way round, as it was before."""
    if begins_with(first, ("log,", "book,")) and begins_with(second, ("format,",)):
        notes.add(f"{first} is a report, and {second} its day: the day is named first")
        return second, first
    return first, second


def about_date(
    before: datetime.date | None, date: datetime.date, calendar: Collection[datetime.date]
) -> Iterator[str]:
    """Tells if a day is no working day, and which working days lie between it and the day before, if there is one."""
    if date not in calendar:
        yield f"{date:%A} {date} is no working day by the calendar"
    between = [skipped for skipped in calendar if before and before < skipped < date]
    if between:
        yield f"working days that are passed over: {days_in_words(between)}"


@dataclass(frozen=True)
class Next:
    """What the next text is made of: paths of the day and its report, its date, and what comes in: new instructions,
    working days, changed accounts, and what waits, in a file that is there or one that is made."""

    day: str
    report: str
    date: datetime.date
    do: str | None = None
    work: str | None = None
    changes: str | None = None
    pending: str | None = None
    pending_new: str | None = None
    again: bool = False


@dataclass(frozen=True)
class NextText:
    """The next text, the pending file with its path, if one is named, and what is to be told."""

    text: str
    pending: tuple[str, str] | None
    notes: Notes


def next_head(asked: Next, day: DayText, report: Report, notes: Notes) -> tuple[rules.Day, dict[int, Block]]:
    """The next day as the rules see it, without instructions: its calendar and its book; and the book in blocks."""
    date = later_date(asked.date, day)
    calendar = next_calendar(day, asked.work, notes)
    book = book_with_changes(day, report, asked.changes, notes)
    head = dataclasses.replace(day.head, date=date, working_days=calendar, accounts=Accounts(book))
    notes.lines += about_date(day.head.date, head.date, calendar)
    look_at_calendar(head, book, notes)
    return head, book


def next_text(asked: Next) -> NextText:
    """The text of the next day. Raises FileFault or WordsFault if there can be none."""
    notes = Notes()
    path = pending.chosen_path(asked.pending, asked.pending_new)
    file = pending.read_pending(asked.pending) if asked.pending else None
    day, report = read_pair(*in_order(asked.day, asked.report, notes))
    head, book = next_head(asked, day, report, notes)
    waiting = waiting_after(day, report, file, head.date, notes)
    entered = enter_due(head, waiting, notes)
    left = len(waiting) - len(entered)
    if left and not path:
        name = "name a file for them by --pending or --pending-new"
        raise WordsFault(f"instructions that are not due on {head.date}: {left}", name, "; ")
    new = new_instructions(asked.do, report, len(entered))
    tell_repeated(Handed(new, day, report, waiting), asked.again, notes)
    tell_dates(new, head, notes)
    check_count(report.next_record, len(entered) + len(new))
    tell_refused(report, notes)
    notes.add(f"accounts: {len(book)}")
    counts = f"{len(entered)} waited and {len(new)} are new; {left} go on waiting"
    notes.add(f"instructions: {len(entered) + len(new)}, of which {counts}")
    notes.add(f"next day: {head.date}, records from {report.next_record}")
    rows = [*heading_of(day, head.date, report.next_record, head.working_days)]
    for block in book.values():
        rows += block.rows
    rows += [*(waits.instruction.row for waits in entered), *new.rows, "end", ""]
    made = (path, pending.text_of(waiting, pending.Made(head.date, report.next_record))) if path else None
    return NextText("\n".join(rows), made, notes)


def check_count(first: int, count: int) -> None:
    """Ends the command if the day would have more instructions than it may, or records above the last one."""
    most = faults.MOST["do"]
    if count > most:
        many = f"the day would have {count} instructions, and at most {most} may be"
        raise WordsFault(many, "move some to another day")
    if count and first + count - 1 > tables.MOST_RECORD:
        raise WordsFault(f"the day would need records above {tables.MOST_RECORD}")
