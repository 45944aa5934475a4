"""Reads day texts, and parts of them: each row with its line. The values are the records of `rules`."""
import dataclasses
import functools
from dataclasses import dataclass
from pathlib import Path

from registry_tools import tables
from registry_tools.errors import RowFault, shown
from registry_tools.second import faults, rules
from registry_tools.texts.accounts import Accounts, Block, Known, Reader, WithBook
from registry_tools.texts.rows import Rows, rows_of


@dataclass
class DayText(WithBook):
    """A day text: its first rows as a day without accounts, its accounts by number, and its instructions in order."""

    source: Rows
    version: int
    head: rules.Day
    book: dict[int, Block]
    instructions: list[rules.Instruction]
    # The places of the first `account` row, and of the first `do` row.
    first_account: int
    first_do: int
    others: list[int] | None = None

    @property
    def heading(self) -> list[str]:
        """The rows before the accounts."""
        return self.source.rows[: self.first_account]

    @functools.cached_property
    def places(self) -> dict[str, int]:
        """The places of the rows before the accounts, by the rows."""
        return {row: place for place, row in enumerate(self.heading)}

    def line_of(self, row: str) -> int:
        """The line of a row before the accounts."""
        return self.source.line(self.places[row])

    def line_of_tag(self, tag: str) -> int:
        """The line of the first row with this tag before the accounts; of the row behind them, if there is none."""
        places = (place for place, row in enumerate(self.heading) if row.partition(",")[0] == tag)
        return self.source.line(next(places, self.first_account))

    def line_of_instruction(self, place: int) -> int:
        """The line of an instruction by its place, counted from 0."""
        return self.source.line(self.first_do + place)

    @property
    def book_rows(self) -> list[str]:
        """The rows of all accounts."""
        return self.source.rows[self.first_account : self.first_do]

    @property
    def do_rows(self) -> list[str]:
        """The `do` rows."""
        return self.source.rows[self.first_do : -1]

    def known(self) -> Known:
        """What is known of the text, by which the next one is read more quickly."""
        return Known(self.book, len(self.head.periods), self.head.next_record)

    def day(self) -> rules.Day:
        """The day as the rules settle it. Each call makes another one, whose accounts may change."""
        return dataclasses.replace(self.head, accounts=Accounts(self.book), instructions=self.instructions)


def read_day(path: str | Path, known: Known | None = None) -> DayText:
    """A day text without a fault. That is quicker with the `known` book of the report before it."""
    source = rows_of(path)
    if source.rows and source.rows[0].startswith(("log,", "book,")):
        raise source.fault(0, "", "a report", "a day text, whose first row is format,1 or format,2")
    return day_of(source, known)


def day_of(source: Rows, known: Known | None = None) -> DayText:
    """The day text of these rows. Raises RowFault or FileFault at the first fault."""
    reader, rows = Reader(source, faults.Reading()), source.rows
    starts = (index for index, row in enumerate(rows) if row == "end" or row.startswith(("account,", "do,")))
    first_account = next(starts, len(rows))
    for index in range(first_account):
        reader.add(index)
    book, first_do, others = reader.blocks(first_account, known)
    for index in range(first_do, len(source)):
        reader.add(index)
    if reader.reading.last != "end":
        lacking, behind = f"a row {' or '.join(reader.reading.may_follow())}", len(source)
        raise RowFault(behind + 1, "end", source.path, source.line(behind), "end", "the end of the file", lacking)
    head = rules.day_of_fields(row.split(",") for row in rows[:first_account])
    instructions = [rules.read_instruction(row.split(",")[1:]) for row in rows[first_do:-1]]
    return DayText(source, reader.reading.version, head, book, instructions, first_account, first_do, others)


# Parts of day texts.


def read_rows_of(tag: str, path: str | Path | Rows, reading: faults.Reading) -> Rows:
    """The rows of a file that has only rows with this tag, and perhaps `end`. `reading` says what stood before them."""
    source = part_of_day(path)
    reader = Reader(source, reading)
    for index, row in enumerate(source.rows):
        if row.partition(",")[0] != tag:
            commas = ", with commas between their fields" if row.startswith((f"{tag};", f"{tag}\t")) else ""
            raise source.fault(index, "tag", shown(row.partition(",")[0]), f"only {tag} rows in this file{commas}")
        reader.add(index)
    return source


def read_blocks(path: str | Path | Rows, reading: faults.Reading) -> dict[int, Block]:
    """The accounts of a file that has only their blocks, and perhaps `end`, by number."""
    source = part_of_day(path)
    book, behind, _ = Reader(source, reading).blocks(0)
    if behind < len(source):
        raise source.fault(behind, "tag", shown(source.fields(behind)[0]), "account rows, and the rows of their lists")
    return book


def reading_of_any_day() -> faults.Reading:
    """What stands before accounts that are of no day yet: each record number and period is allowed."""
    years = [*range(tables.MOST_PERIODS)]
    return faults.Reading(last="work", version=2, next_record=tables.MOST_RECORD + 1, last_years=years)


def part_of_day(path: str | Path | Rows) -> Rows:
    """The rows of a file, or of some text that was read, without the row `end`."""
    source = path if isinstance(path, Rows) else rows_of(path)
    if source.rows[-1:] == ["end"]:
        source.rows.pop()
    return source
