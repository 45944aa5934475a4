"""A day worked out once more by the rules in plain Python (tools/rules.py), without the program, and compared with its
report: the log, the accounts and the totals."""
import itertools
from collections.abc import Callable, Iterable, Iterator
from dataclasses import dataclass

from registry_tools.engine import NotSettled, Settler
from registry_tools.errors import FileFault, of_file, shown
from registry_tools.progress import progress
from registry_tools.second import rules
from registry_tools.texts.day_text import DayText, read_day
from registry_tools.texts.rows import Rows, bytes_of, rows_of

@dataclass(frozen=True)
class Verified:
    """A day that was worked out once more: how many instructions and accounts it has, and where its report differs."""

    instructions: int
    accounts: int
    difference: FileFault | None


def expected_rows(day: DayText) -> Iterator[str]:
    """The rows of the report of a day, by the rules."""
    settled, log = settled_again(day)
    progress.tell("working out the accounts")
    for number in day.book:
        # (an account that no instruction asked for is read now)
        settled.accounts[number]
    yield from rules.report(settled, log)
    yield "end"


def settled_again(day: DayText) -> tuple[rules.Day, list[rules.Logged]]:
    """A day as the rules leave it, and its log."""
    settled = day.day()
    return settled, [*progress.over(rules.settle(settled), f"settling {day.path}", len(day.instructions), step=100)]


def first_difference(source: Rows, expected: Iterable[str]) -> FileFault | None:
    """The first row of a report that differs from what is expected, as a fault of the report."""
    rows = source.rows + [None]
    for place, (row, other) in enumerate(itertools.zip_longest(rows, expected)):
        if row != other:
            found = "the end of the file" if row is None else shown(row)
            return source.fault(place, "row", found, "the end of the file" if other is None else shown(other))
    return None


def other_bytes(settler: Settler, day: str, report: str) -> FileFault | None:
    """How a report differs from what the engine writes of its day."""
    try:
        settled = settler.settle(bytes_of(day))
    except NotSettled as fault:
        return of_file(day, str(fault))
    return None if settled == bytes_of(report) else of_file(report, f"{settler.name} writes other bytes")


def verify(day_path: str, report_path: str, settler: Callable[[], Settler] | None = None) -> Verified:
    """Works a day out once more, and compares the report: also with what the engine writes, if one is named."""
    day, source = read_day(day_path), rows_of(report_path)
    difference = first_difference(source, expected_rows(day))
    if difference is None and settler:
        difference = other_bytes(settler(), day_path, report_path)
    return Verified(len(day.instructions), len(day.book), difference)
