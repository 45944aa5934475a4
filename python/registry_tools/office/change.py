"""Changes an account or the rules of the day by hand, as a difference that comes into the next day's text of a folder.
The difference is shown first; it counts if it is meant to. What an act does, and what no hand may do, is refused."""
import contextlib
import datetime
from collections.abc import Iterable, Iterator
from dataclasses import dataclass, replace

from registry_tools import tables, voice
from registry_tools.errors import Fault, WordsFault
from registry_tools.notes import LOOK, Notes
from registry_tools.office import approvals, composing, intake
from registry_tools.pairs import edits, next as next_day
from registry_tools.pairs.edits import PUT, Edit, EditFault
from registry_tools.office.intake import HandedIn, Part
from registry_tools.office.office import By, Office
from registry_tools.texts.accounts import Block
from registry_tools.texts.day_text import DayText
from registry_tools.texts.report import Report
from registry_tools.texts.rows import KeptText, text_of_rows

LAGS = (*map(str.lower, tables.LAGS),)
# A difference of one lag: all of them are one row of the rules.
LAG = "lag"
NOTHING = "nothing would be changed: it is so already"


@dataclass(frozen=True)
class Change:
    """A change by hand: its differences, the reason, and whether it counts."""

    edits: tuple[Edit, ...]
    why: str
    yes: bool = False


@dataclass(frozen=True)
class Changed:
    """What a change by hand makes of the next day: the rows that go and come, and what is to be looked at that was not
    so before. If it counts, its part of what is handed in, and what waits for another login, in words."""

    date: datetime.date
    rows: list[str]
    notes: list[str]
    part: Part | None
    waits: list[str]


def change_by_hand(office: Office, by: By, asked: Change) -> Changed:
    """Shows a change by hand, and has it count if it is meant to. Raises WordsFault or FileFault if the next day can't
    have it, or if it changes nothing."""
    with office.changing("change", by) if asked.yes else office.trying("change", by):
        came = changed(office, asked)
        office.must_be_as_shown(by, came.rows)
    return came if asked.yes else replace(came, part=None, waits=[])


def changed(office: Office, asked: Change) -> Changed:
    """Hands in a change by hand, in a change of the folder."""
    handed_in = approvals.handed_in_of(office)
    composing.last_day(office)
    date = composing.settlement_date(office, handed_in)
    before = composing.compose(office, handed_in.until(date), date)
    text_before = before.day()
    made = [*with_all_lags(asked.edits, text_before.head.lags)]
    try:
        content = text_of_rows([edit.row() for edit in made])
        part = intake.put(office, handed_in, intake.EDITS, content, len(made), asked.why)
        after = composing.compose(office, handed_in.until(date), date)
    except EditFault as fault:
        # (it has no place yet)
        raise WordsFault(fault.why) from None
    notes = [note for note in after.notes if note.startswith(LOOK) and note not in before.notes]
    rows = [*rows_between(text_before, after.day())]
    if not rows:
        raise WordsFault(NOTHING)
    return Changed(date, rows, notes, part, approvals.told_of_new(office, [part]))


def with_all_lags(made: Iterable[Edit], lags: dict[str, int]) -> Iterator[Edit]:
    """Differences, of which those of single lags are one of the row of all."""
    now, is_told = {name: str(days) for name, days in lags.items()}, False
    now.update(edit.words[1:] for edit in made if edit.words[0] == LAG)  # type: ignore[misc]
    for edit in made:
        fitting = edit
        if edit.words[0] == LAG:
            if is_told:
                continue
            fitting, is_told = Edit(0, PUT, ("lags", *(now[name] for name in LAGS))), True
        edits.must_be_readable(fitting)
        yield fitting


def rows_between(before: DayText, after: DayText) -> Iterator[str]:
    """The rows that go and come between two texts of the next day, those of the rules first."""
    yield from edits.rows_gone_and_come(before.heading, after.heading)
    yield from account_differences(before.book, after.book)


def account_differences(before: dict[int, Block], after: dict[int, Block]) -> Iterator[str]:
    """The rows of accounts that went and came, each with its account."""
    for number, block in after.items():
        old = before.get(number)
        rows = edits.rows_gone_and_come(old.rows if old else [], block.rows)
        yield from (f"{number}: {row}" for row in rows)


def look_at_waiting(office: Office, handed_in: HandedIn, part: Part) -> list[str]:
    """The rows that go and come if a change that waits for another login counts; none, if the next day can't have
    it, or if it is none by hand."""
    if part.kind not in (intake.CHANGES, intake.EDITS):
        return []
    others = [other for other in handed_in.waiting if other.start != part.start]
    # (what keeps it out of the next day is told where that day is made)
    with contextlib.suppress(Fault):
        date = composing.settlement_date(office, handed_in)
        both = handed_in.until(date), replace(handed_in, waiting=others).until(date)
        before, after = (composing.compose(office, incoming, date).day() for incoming in both)
        return [*rows_between(before, after)]
    return []


def on_pair(day: DayText, report: Report, made: list[Edit]) -> tuple[bytes, list[str]]:
    """The whole blocks of the accounts that differences change, behind a report of a folder that nobody keeps, and the
    rows that go and come. Raises WordsFault if they change nothing."""
    if any(edit.number == 0 for edit in made):
        where = f"change a row of the rules in the text that {voice.command('next')} writes"
        raise WordsFault("with --pairs only accounts are changed", where)
    blocks = edits.edited_blocks(made, report, {})
    text = text_of_rows([row for rows in blocks.values() for row in rows])
    after = next_day.book_with_changes(day, report, KeptText("changes.csv", lambda: text), Notes())
    rows = [*account_differences(report.book, {number: after[number] for number in blocks})]
    if not rows:
        raise WordsFault(NOTHING)
    return text, rows
