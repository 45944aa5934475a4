"""The accounts of a book: each a block of rows, which is checked as docs/FORMATS.md says it when it is read.

What a row must be is said by `faults.Reading`. Blocks are first looked at by the patterns that are made of it. The
values are the records of `rules`: an `Account` of a block.
"""
import functools
import re
from collections.abc import Mapping
from dataclasses import dataclass
from pathlib import Path

from registry_tools.errors import RowFault, shown
from registry_tools.progress import progress
from registry_tools.second import faults, rules
from registry_tools.texts.blocks import Block as Block
from registry_tools.texts.patterns import ACCOUNT_ROW, has_no_fault, list_row
from registry_tools.texts.rows import Rows
from registry_tools.texts.runs import Run, runs_of


def starts_of_blocks(source: Rows, first: int) -> tuple[list[int], int]:
    """The places of the `account` rows from this row on, and the place of the first row behind their blocks."""
    rows, ends = source.rows, ("do,", "totals,")
    behind = (index for index in range(first, len(rows)) if rows[index] == "end" or rows[index].startswith(ends))
    end = next(behind, len(rows))
    return [index for index in range(first, end) if rows[index].startswith("account,")], end


class Accounts(dict[int, rules.Account]):
    """The accounts of a book, each made of its block when it is first asked for: few days touch all of them."""

    def __init__(self, book: Mapping[int, Block]) -> None:
        super().__init__()
        self.book = book

    def __missing__(self, number: int) -> rules.Account:
        self[number] = self.book[number].account()
        return self[number]

    def __contains__(self, number: object) -> bool:
        return number in self.book

    def get(  # type: ignore[override]
        self, number: int, default: rules.Account | None = None
    ) -> rules.Account | None:
        """The account with this number, or what is said for none."""
        return self[number] if number in self else default


@dataclass
class Known:
    """A book that was read before without a fault, in a text with so many periods and this next record number: an
    account that stands so in a later text, too, needs no second look."""

    book: dict[int, Block]
    periods: int
    next_record: int

    def book_for(self, reading: faults.Reading) -> dict[int, Block]:
        """The book, as far as it says something of a text that is read now."""
        is_within = self.periods <= len(reading.last_years) and self.next_record <= reading.next_record
        return self.book if is_within else {}


class Reader:
    """Reads the rows of a file one after another, and ends with a fault of the file at the first one that cannot stand
    there."""

    def __init__(self, source: Rows, reading: faults.Reading) -> None:
        self.source, self.reading = source, reading

    def add(self, index: int) -> None:
        """Adds a row, if it has no fault."""
        fields = self.source.fields(index)
        try:
            self.reading.add(fields)
        except faults.Fault as fault:
            raise self.told(index, fields, fault) from None

    def told(self, index: int, fields: list[str], fault: faults.Fault) -> RowFault:
        """What a fault of a row is, for somebody who has the file open."""
        row = shown(",".join(fields))
        if fault.cause == "fields":
            name, found = f"{fields[0]} row", f"{len(fields)} fields in {row}"
        elif not fault.place:
            name, found = f"{fields[0]} row", row
        else:
            name, found = fault.name, shown(fields[fault.place - 1])
        place = self.source.path, self.source.line(index)
        return RowFault(index + 1, fault.cause, *place, name, found, fault.expected)

    def blocks(self, first: int, known: Known | None = None) -> tuple[dict[int, Block], int, list[int] | None]:
        """The accounts whose blocks begin at this row, by number, and the place of the row behind them. Those that
        stand so in the known book need no look; the others are told, if there is one."""
        source, book, end, others = self.source, dict[int, Block](), first, list[int]()
        pattern, what = self.pattern(), f"reading the accounts of {source.path}"
        known_book = known.book_for(self.reading) if known and not source.unplain else {}
        for run in runs_of(source.rows, first, [*known_book.values()]):
            progress.tell(what, run.start, len(source))
            if self.add_known(run):
                run.add_to(book, source)
            else:
                for start, behind in run.places():
                    number = self.block(start, behind, pattern, known_book)
                    book[number] = Block(number, source, start, behind - start)
                    others.append(number)
            end = run.behind
        return book, end, others if known else None

    def add_known(self, run: Run) -> bool:
        """Adds accounts that stand so in the known book, if there are some and they may stand here."""
        reading = self.reading
        (last,), count = reading.before.get("account", (0,)), reading.counts.get("account", 0) + len(run.same)
        if not run.same or run.same[0].number <= int(last) or count > faults.MOST["account"]:
            return False
        reading.before["account"], reading.counts["account"] = (run.same[-1].number,), count
        reading.last = self.source.rows[run.behind - 1].partition(",")[0]
        return True

    def pattern(self) -> re.Pattern[str]:
        """The pattern of the rows of the lists, by the periods that were read."""
        return list_row(len(self.reading.last_years) if self.reading.version == 2 else 1)

    def block(self, start: int, behind: int, pattern: re.Pattern[str], known: dict[int, Block]) -> int:
        """The number of an account, whose block has no fault."""
        if not self.skip_block(start, behind, pattern, known):
            for index in range(start, behind):
                self.add(index)
        (number,) = self.reading.before["account"]
        return int(number)

    def skip_block(self, start: int, behind: int, pattern: re.Pattern[str], known: dict[int, Block]) -> bool:
        """Adds the rows of a block, if a quick look finds no fault."""
        rows, reading = self.source.rows[start:behind], self.reading
        match = ACCOUNT_ROW.fullmatch(rows[0])
        (last,), count = reading.before.get("account", (0,)), reading.counts.get("account", 0)
        number = int(match[1]) if match else 0
        if number <= int(last) or count >= faults.MOST["account"] or self.source.unplain:
            return False
        is_known = number in known and known[number].list_rows == rows[1:]
        if not is_known and not has_no_fault(rows[1:], pattern, reading.next_record):
            return False
        reading.before["account"], reading.counts["account"] = (number,), count + 1
        reading.last = rows[-1].partition(",")[0]
        return True


class WithBook:
    """What a day text and a report have in common."""

    source: Rows
    book: dict[int, Block]
    first_account: int
    # The accounts that do not stand so in the text before it; None, if it was read without that one.
    others: list[int] | None

    @property
    def path(self) -> str | Path:
        """The path of the text."""
        return self.source.path

    @functools.cached_property
    def numbers(self) -> list[int]:
        """The numbers of the accounts, rising."""
        return [*self.book]
