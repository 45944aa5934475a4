"""What is found of a folder that is looked at; and whether a filed day is what its event says, and follows from the day
before and from what was handed in."""
import contextlib
import datetime
import itertools
from collections.abc import Callable, Iterator
from dataclasses import dataclass, field
from pathlib import Path
from typing import NamedTuple

from registry_tools import voice
from registry_tools.errors import FileFault, UnwrittenFault, WordsFault, of_file, shown
from registry_tools.notes import counted
from registry_tools.office import composing, intake
from registry_tools.pairs import settlement
from registry_tools.office.office import Office
from registry_tools.office.program import named_program
from registry_tools.office.waits import waits_text
from registry_tools.store import checks, file
from registry_tools.store.events import OF_DAYS, Event
from registry_tools.store.past import PastDay
from registry_tools.store.texts import put_back
from registry_tools.texts.day_text import DayText, read_day
from registry_tools.texts.follows import differences
from registry_tools.texts.pending import read_pending
from registry_tools.texts.report import Report, read_report
from registry_tools.texts.rows import KeptText, Rows, bytes_of, text_of_rows

# How what is found is mended.
FILE_FIRST = "put the file back from a copy first, and audit again"
# A filed day with the event that filed it, and its report.
Filed = tuple[Event, DayText, Report]


def close_again() -> str:
    """How a day is settled once more that is not what it must be."""
    way = f"{voice.command('undo')} takes the days back to this one, to be closed again"
    return f"{way}; if released, a later day corrects it"


class Given(NamedTuple):
    """What was handed in for a day: the rows of the first text, if it is that, and those of each kind."""

    first_rows: list[str] | None
    merged: dict[str, Rows]


@dataclass
class Found:
    """What was found. `text_of` tells by which name a text of a day is read."""

    office: Office
    text_of: Callable[[Event, str], KeptText]
    faults: list[FileFault] = field(default_factory=list)
    told: set[str] = field(default_factory=set)
    # How many pairs were read, and from how many heads that were kept the folder has grown.
    pairs: int = 0
    heads: str = ""
    # Whether the events are what they were: else days are not mended by commands.
    has_events: bool = True
    # Who approved which office.ini, in words.
    rewrites: list[str] = field(default_factory=list)

    def mending(self, _date: datetime.date) -> str:
        """How a difference of a day is mended."""
        return close_again() if self.has_events else FILE_FIRST

    def given(self, event: Event, _day: DayText) -> "Given":
        """What was handed in for a day."""
        filed = intake.for_a_day(self.office.store, event)
        if filed.first is None:
            return Given(None, filed.merged())
        rows = filed.rows(filed.first).rows
        return Given(rows[: len(rows) - (rows[-1:] == ["end"])], filed.merged())

    def says(self) -> str:
        """What says when a day was filed, and with which records."""
        return str(self.office.store.path)

    def add(self, *faults: FileFault | None, mend: str = "") -> None:
        """Adds what was found, each once, and how it is mended."""
        for fault in filter(None, faults):
            told = str(fault)
            if told not in self.told:
                self.told.add(told)
                self.faults.append(fault)
                if mend and put_back() not in told:
                    fault.add_way(mend)

    @contextlib.contextmanager
    def adding(self, mend: str = "") -> Iterator[None]:
        """Takes up the fault that ends the block."""
        try:
            yield
        except UnwrittenFault:
            # (as where no room is left for what is compared: the folder has no fault)
            raise
        except FileFault as fault:
            self.add(fault, mend=mend)
        except (*file.UNREADABLE, OverflowError) as error:
            self.add(checks.unreadable(self.office.store.path, error))
        except (LookupError, TypeError, ValueError) as error:
            # (events that do not follow from each other lead nowhere)
            self.add(checks.unreadable(self.office.store.path, f"{type(error).__name__} {error}"))

    def summary(self) -> str:
        """The last line, with the counts."""
        events = self.office.events
        counts = f"events {len(events.named(*OF_DAYS))}, days {len(events.days)}, pairs read {self.pairs}{self.heads}"
        return f"{voice.path(self.office.path)}: {counts}: {counted(len(self.faults), 'difference', 'differences')}"


def past_day_of(day: DayText, report: Report, before: Filed | None) -> PastDay:
    """A day with its report, and with the day before it, if that was read."""
    return PastDay(day, report, *((before[2], before[1].heading) if before else (None, [])))


def look_at_day(found: Found, event: Event, before: Filed | None, by_program: bool, by_second: bool) -> Filed:
    """Tells where a filed pair is not what its event says, or what follows from the day before."""
    day = read_day(found.text_of(event, "text"), before and before[2].known(before[1]))
    report = read_report(found.text_of(event, "report"), day)
    found.pairs += 1
    mend, past_day = found.mending(event.date), past_day_of(day, report, before)
    # (as long as nothing was found, the totals of the report before are the sums over its accounts)
    sums = past_day.sums() if before and not found.faults else None
    found.add(*differences(day, report, sums), mend=mend)
    for name, found_there, expected in (
        ("date", day.head.date, event.date),
        ("first", day.head.next_record, event.first),
        ("next", report.next_record, event.next),
    ):
        if found_there != expected:
            says = f"{expected}, as {found.says()} says"
            found.add(FileFault(day.path, day.line_of_tag("day"), name, found_there, says), mend=mend)
    look_at_seam(found, event, day, report, before)
    text = bytes_of(report.path) if by_program or by_second else b""
    if by_program:
        # (the pair was read: the next day is looked at behind it)
        with found.adding(mend):
            settled = settlement.by_engine(named_program(found.office), bytes_of(day.path), day.path)
            compare_texts(found, report.path, text, settled, "the program", mend)
    if by_second:
        compare_texts(found, report.path, text, settlement.by_rules(day), "the second answer", mend)
    return event, day, report


def look_at_seam(found: Found, event: Event, day: DayText, report: Report, before: Filed | None) -> None:
    """Whether the day's text, and what waits before and behind it, are what the day before and what was handed in
    make."""
    given, mend = found.given(event, day), found.mending(event.date)
    if given.first_rows is None and before is None:
        return
    waiting = found.text_of(event, "waiting")
    if given.first_rows is not None:
        text = text_of_rows([*given.first_rows, *given.merged[intake.DO].rows, "end"])
        made = composing.NextDay(event.date, event.first, text, [], [], [])
    else:
        made = later_again(found, event, given, before)
    compare_texts(found, day.path, bytes_of(day.path), made.text, "what was handed in", mend)
    compare_texts(found, waiting, bytes_of(waiting), made.waiting_text(), "what was handed in", mend)
    if event.waits:
        behind = found.text_of(event, "waits")
        wanted = waits_text(day, report, read_pending(waiting))
        compare_texts(found, behind, bytes_of(behind), wanted, f"the day {event.date}", mend)


def later_again(found: Found, event: Event, given: Given, before: Filed | None) -> composing.NextDay:
    """The day made once more of what was handed in for it. Raises FileFault if that cannot be done."""
    assert before is not None
    last, day, report = before
    name, waiting = found.text_of(event, "text").rpartition("/")[0], found.text_of(last, "waiting")
    try:
        return composing.later_text(day, report, event.date, given.merged, waiting, name)
    except WordsFault as fault:
        raise of_file(name, str(fault)) from None


def compare_texts(found: Found, path: str | Path, text: bytes, expected: bytes, whose: str, mend: str) -> None:
    """Tells the first row in which a text is not what is expected."""
    if text == expected:
        return
    rows, others = (content.decode("utf-8", "surrogateescape").split("\n") for content in (text, expected))
    pairs = itertools.zip_longest(rows, others)
    number, row, other = next((number, *pair) for number, pair in enumerate(pairs, 1) if pair[0] != pair[1])
    found.add(FileFault(path, number, "row", row_in_words(row), f"{row_in_words(other)}, by {whose}"), mend=mend)


def row_in_words(row: str | None) -> str:
    """A row as a fault tells it."""
    return "the end of the file" if row is None else shown(row)
