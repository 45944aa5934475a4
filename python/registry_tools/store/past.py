"""Settled days one after another, as their texts say them: those that are kept, or pairs of paths."""
import contextlib
import datetime
import functools
from collections.abc import Iterator, Sequence
from dataclasses import dataclass

from registry_tools.errors import FileFault, WordsFault
from registry_tools.progress import progress
from registry_tools.store.texts import Pair
from registry_tools.texts import changes
from registry_tools.texts.books import Sums, sums_of, sums_told
from registry_tools.texts.changes import HandChange
from registry_tools.texts.day_text import DayText, read_day
from registry_tools.texts.filed import filed_day, filed_report
from registry_tools.texts.follows import line_behind, must_follow
from registry_tools.texts.report import Report, read_report
from registry_tools.texts.rows import rows_of
from registry_tools.texts.runs import unlike


@dataclass
class PastDay:
    """A settled day with its report, and of the day before it the report and the rows before the accounts, if that was
    read."""

    day: DayText
    report: Report
    before: Report | None
    rules_before: list[str]

    @property
    def date(self) -> datetime.date:
        """The date of the day."""
        return self.day.head.date

    @functools.cached_property
    def changed(self) -> list[int]:
        """The accounts after the day that are others than after the day before; on a first day, all of them."""
        day, report = self.day.others if self.before else None, self.report.others
        others = None if day is None or report is None else sorted({*day, *report} & self.report.book.keys())
        return unlike(self.before.book if self.before else {}, self.report.book, others)

    def sums(self) -> dict[str, Sums]:
        """The sums over the accounts of the report, by the totals of the report before, which were compared: only
        accounts that are others now are added up."""
        if self.before is None:
            return sums_of(self.report.book_rows)
        old, new, told = self.before.book, self.report.book, sums_told(self.before)
        went = {*self.changed, *old.keys() - new.keys()} & old.keys()
        gone = sums_of(row for number in went for row in old[number].rows)
        come = sums_of(row for number in self.changed for row in new[number].rows)
        pairs = {kind: zip(told[kind], gone[kind], come[kind]) for kind in told}
        return {kind: Sums(*(was - less + more for was, less, more in kinds)) for kind, kinds in pairs.items()}

    def changes(self) -> Iterator[HandChange]:
        """What people changed before this day."""
        if self.before is not None:
            yield from changes.between(self.rules_before, self.before, self.day)


def read_all(pairs: Sequence[Pair]) -> Iterator[PastDay]:
    """Reads one day after another. Each must be later than the one before it, and of the same registry."""
    before: PastDay | None = None
    for place, pair in enumerate(pairs):
        progress.tell("reading the days", place, len(pairs))
        day, report = read(pair, before)
        if before and day.head.date <= before.date:
            raise WordsFault(f"{day.path} is of {day.head.date}, and stands behind {before.date}: days rise")
        if before and not pair.is_filed:
            must_be_of_one_registry(before.report, day)
        before = PastDay(day, report, before.report if before else None, before.day.heading if before else [])
        yield before


def read(pair: Pair, before: PastDay | None = None, has_book: bool = True) -> tuple[DayText, Report]:
    """A day text and its report. Of a pair that is kept the accounts are left out, if nobody asks for them."""
    if pair.is_filed:
        with contextlib.suppress(ValueError, IndexError):
            filed = filed_day(rows_of(pair.day), before.report if before else None, has_book)
            return filed, filed_report(rows_of(pair.report), filed)
    day = read_day(pair.day, before.report.known(before.day) if before else None)
    report = read_report(pair.report, day)
    must_follow(day, report)
    return day, report


def must_be_of_one_registry(before: Report, day: DayText) -> None:
    """Ends the command if a day can't be a later one of a report: its records go on, and each account stays."""
    line = day.line_of_tag("day")
    if day.head.next_record < before.next_record:
        expected = f"at least {before.next_record}, as {before.path}:{before.book_line}"
        raise FileFault(day.path, line, "NEXT", day.head.next_record, expected)
    gone = min(before.book.keys() - day.book.keys(), default=None)
    if gone is not None:
        where = f"account {gone} of {before.path}:{before.book[gone].line}"
        raise FileFault(day.path, line_behind(day, gone), "account", f"no account {gone}", where)
