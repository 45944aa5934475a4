"""New instructions that would be done twice, and dates of proposal that look like slips."""
import bisect
import datetime
from dataclasses import dataclass
from typing import Iterator

from registry_tools.notes import Notes, first_ones
from registry_tools.second import rules
from registry_tools.texts.day_text import DayText
from registry_tools.texts.pending import Waiting
from registry_tools.texts.report import Report, outcome_of
from registry_tools.texts.rows import Rows


@dataclass
class Handed:
    """What was handed in, and where the rest of it stands: the new `do` rows, the settled day with its report, and what
    waits."""

    new: Rows
    day: DayText
    report: Report
    waiting: list[Waiting]

    def places(self) -> dict[str, list[str]]:
        """Each row that was handed in before, with its places in words."""
        places: dict[str, list[str]] = {}
        waits = {waiting.record for waiting in self.waiting}
        by_itself = "where it waits and comes into the text of its due day by itself"
        for waiting in self.waiting:
            places.setdefault(waiting.instruction.row, []).append(f"{waiting.place}, {by_itself}")
        for place, logged in enumerate(self.report.log):
            if logged.record not in waits:
                where = f"{self.day.path}:{self.day.line_of_instruction(place)}, {outcome_of(logged)}"
                places.setdefault(logged.instruction.row, []).append(where)
        return places


def tell_repeated(handed: Handed, is_again: bool, notes: Notes) -> None:
    """Warns of new instructions that were handed in before, in this file or another one. `--again` says that this is
    meant."""
    new, lines = handed.new, [*repeated_lines(handed)]
    if lines and is_again:
        notes.add(f"entered once more, as --again says: {len(lines)} of the rows of {new.path}")
        return
    place = place_in(handed.day.do_rows, new.rows)
    if place is not None and len(new.rows) > 1:
        first = f"{handed.day.path}:{handed.day.line_of_instruction(place)}"
        which = f"its {len(new.rows)} rows stand from {first} on, as they are"
        notes.warn(f"{new.path}: {which}: was this file handed in before? {MEANT}")
    elif lines:
        notes.warn(*first_ones(lines, f"rows of {new.path} that were handed in before"))


MEANT = "If it is meant, say --again"


def repeated_lines(handed: Handed) -> Iterator[str]:
    """A line for each new row that stands somewhere before, with both places."""
    places, new = handed.places(), handed.new
    for index, row in enumerate(new.rows):
        where = places.setdefault(row, [])
        if where:
            stands = "; and in ".join(where)
            yield f"{new.path}:{new.line(index)}: this stands in {stands}. So it comes twice. {MEANT}: {row}"
        where.append(f"{new.path}:{new.line(index)}")


def place_in(rows: list[str], part: list[str]) -> int | None:
    """The place from which on rows have others, one by one; None if there is none."""
    starts = range(len(rows) - len(part) + 1) if part else ()
    return next((start for start in starts if rows[start] == part[0] and rows[start : start + len(part)] == part), None)


# Dates.


def tell_dates(new: Rows, head: rules.Day, notes: Notes) -> None:
    """Warns of new instructions whose PROPOSED is later than the day, or long before it."""
    later, early = [], []
    for index, row in enumerate(new.rows):
        proposed = datetime.date.fromisoformat(row.split(",", 2)[1])
        where = f"{new.path}:{new.line(index)}: PROPOSED"
        if proposed > head.date:
            later.append(f"{where}: found {proposed}, which is later than {head.date}: a slip?")
        elif is_long_before(head, proposed):
            longer = f"longer before {head.date} than the longest lag and the window together"
            early.append(f"{where}: found {proposed}, {longer}: a slip?")
        elif head.working_days and proposed < head.working_days[0]:
            early.append(f"{where}: found {proposed}, and the calendar begins on {head.working_days[0]}: a slip?")
    notes.warn(*first_ones(later, f"rows of {new.path} that were proposed later"))
    notes.warn(*first_ones(early, f"rows of {new.path} that were proposed long before"))


def is_long_before(head: rules.Day, proposed: datetime.date) -> bool:
    """Whether more working days lie between than the longest lag and the window together."""
    between = bisect.bisect_left(head.working_days, head.date) - bisect.bisect_left(head.working_days, proposed)
    return between > max(head.lags[lag] for lag in ("trusted", "other", "list")) + head.lags["reversal"]
