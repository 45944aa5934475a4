"""Days and what the library makes of them, read row by row."""
from __future__ import annotations

import csv
from dataclasses import dataclass
from datetime import date
from functools import cached_property
from io import BytesIO, TextIOWrapper
from typing import TYPE_CHECKING, Any, Iterable, Iterator, Sequence, Union, overload

from registry import native
from registry.rows import Account, Determined, Holding, Instruction, LogRow, Refused, RefusedRow, Task, Totals
from registry.writing import Rules

if TYPE_CHECKING:
    import pandas  # type: ignore[import]

# How a statement ends.
_END = b"\nend\n"
# The byte order mark, which may stand before a day text.
_MARK = b"\xef\xbb\xbf"


def _rows(text: bytes, start: int = 0) -> Iterator[list[str]]:
    """The rows of a text of the library from an offset on, one after another. They have no quotes."""
    lines = BytesIO(text)
    lines.seek(start)
    return (line.decode("ascii").rstrip("\n").split(",") for line in lines)


def _accounts(rows: Iterable[Sequence[str]]) -> Iterator[Account]:
    """The accounts among the rows of a day text or a report, each with its lists."""
    account = None
    for tag, *fields in rows:
        if tag == "account":
            if account:
                yield account
            account = Account.of(fields)
        elif tag in ("do", "totals", "end"):
            break
        elif account:
            account.add(tag, fields)
    if account:
        yield account


class _Text:
    """What has the bytes of a text. It is shown in one short line, however long they are."""

    text: bytes

    def __repr__(self) -> str:
        return f"<registry.{type(self).__name__} of {len(self.text)} bytes>"


@dataclass(frozen=True, repr=False)
class Log(_Text, Sequence[LogRow]):
    """The log of a settled day: its rows, one after another, by their place, or all of a slice."""

    text: bytes

    @cached_property
    def _lines(self) -> list[str]:
        return self.text.decode("ascii").splitlines()

    @overload
    def __getitem__(self, place: int) -> LogRow: ...

    @overload
    def __getitem__(self, place: slice) -> list[LogRow]: ...

    def __getitem__(self, place: Union[int, slice]) -> Union[LogRow, list[LogRow]]:
        if isinstance(place, slice):
            return [LogRow.of(line) for line in self._lines[place]]
        return LogRow.of(self._lines[place])

    def __len__(self) -> int:
        return len(self._lines)

    def refused(self) -> Iterator[RefusedRow]:
        return (row for row in self if isinstance(row, RefusedRow))

    def columns(self) -> Iterator[dict[str, Any]]:
        """Simple values by the columns of `./day log`: once for each instruction, and of a distribution once for each
        account that receives."""
        return (columns for row in self for columns in _columns(row))

    def frame(self) -> pandas.DataFrame:
        """The same as a pandas frame. It needs pandas."""
        return _frame(self.columns())


def _columns(row: LogRow) -> Iterator[dict[str, Any]]:
    i, outcome = row.instruction, row.outcome
    columns: dict[str, Any] = {"record": row.record, "date": row.day, "proposed": i.proposed, "proposer": i.proposer}
    columns |= {"approver": i.approver, "act": i.act.value, "from": i.from_account, "to": i.to, "kind": i.kind}
    columns |= {"amount": i.amount, "year": i.year, "outcome": "done" if row.is_done else "refused"}
    columns |= {"code": getattr(outcome, "code", None), "name": getattr(outcome, "name", None)}
    columns |= {"figure": getattr(outcome, "figure", None), "status": i.status, "record_named": i.record_named}
    for share in i.shares:
        yield {**columns, "to": share.to, "amount": share.amount}
    if not i.shares:
        yield columns


def _frame(rows: Iterable[dict[str, Any]]) -> pandas.DataFrame:
    import pandas

    return pandas.DataFrame(list(rows))


@dataclass(frozen=True, repr=False)
class Report(_Text):
    """The report of a settled day. `text` has the bytes that `registry settle` writes."""

    text: bytes

    @cached_property
    def _book(self) -> int:
        """Where the log ends and the accounts begin."""
        return 0 if self.text.startswith(b"book,") else self.text.index(b"\nbook,") + 1

    @cached_property
    def log(self) -> Log:
        return Log(self.text[: self._book])

    @property
    def next_record(self) -> int:
        """The next record number after the day, by its row alone."""
        return int(self.text[self._book + len(b"book,") : self.text.index(b"\n", self._book)])

    def accounts(self) -> Iterator[Account]:
        """The accounts after the day, by rising number, one after another."""
        return _accounts(_rows(self.text, self._book))

    def totals(self) -> dict[str, Totals]:
        """By kind of allowance."""
        return _totals(self.text[self.text.rindex(b"totals,general,") :])

    def frame(self) -> pandas.DataFrame:
        """A pandas frame with a row for each account after the day. It needs pandas."""
        return _frame(
            {name: getattr(account, name) for name in ("number", "kind", "holder", "status", "general", "aviation")}
            for account in self.accounts()
        )


def _totals(text: bytes) -> dict[str, Totals]:
    rows = [row for row in _rows(text) if row[0] == "totals"]
    return {kind: Totals(kind, *map(int, numbers)) for _, kind, *numbers in rows}


@dataclass(frozen=True, repr=False)
class Statement(_Text):
    """The statement of an account over a day. `text` has the bytes that `registry statement` writes."""

    text: bytes

    def _holding(self, tag: str) -> Holding:
        fields = next(fields for first, *fields in _rows(self.text) if first == tag)
        return Holding(*map(int, fields))

    @property
    def opening(self) -> Holding:
        return self._holding("opening")

    @property
    def closing(self) -> Holding:
        return self._holding("closing")

    @property
    def log(self) -> Log:
        return Log(b"".join(line for line in self.text.splitlines(True) if line.startswith(b"log,")))


@dataclass(frozen=True, repr=False)
class Day(_Text):
    """A day text. Each question is a call of the library, which raises `Fault` if the bytes are no day text."""

    text: bytes

    def __post_init__(self) -> None:
        object.__setattr__(self, "text", native.bytes_of(self.text))

    def settle(self) -> Report:
        return Report(native.settle(self.text))

    def attempt(self) -> Log:
        """Why each instruction is done or refused: the log alone."""
        return Log(native.attempt(self.text))

    def statement(self, account: int) -> Statement:
        """Raises `NoAccount` if the day has no such account."""
        return Statement(native.statement(self.text, account))

    def statements(self) -> Iterator[Statement]:
        """The statements of all accounts, by rising number, after one settlement."""
        text, start = native.statements(self.text), 0
        while start < len(text):
            end = text.index(_END, start) + len(_END)
            yield Statement(text[start:end])
            start = end

    def totals(self) -> dict[str, Totals]:
        """What all accounts together hold, have surrendered and have deleted after the day, by kind of allowance."""
        return _totals(native.totals(self.text))

    def figures(self) -> Iterator[Determined]:
        """The determined compliance figures after the day."""
        rows = [row for row in _rows(native.figures(self.text)) if row[0] == "determined"]
        return (Determined(int(account), int(year), int(figure)) for _, account, year, figure in rows)

    def next_day(self, on: date) -> bytes:
        """The text of the next day up to its instructions: its `do` rows, if it has some, and the row `end` go behind
        it. Raises `NoNextDate` if this date is not later than the day."""
        return native.next_day(self.text, on)

    def plan(self) -> Iterator[Task]:
        """Which instructions must wait for which others."""
        place, level, waits_for = 0, 0, []  # type: int, int, list[tuple[int, int]]
        for tag, *fields in [*_rows(native.plan(self.text))]:
            if tag == "arrow":
                waits_for.append((int(fields[0]), int(fields[2])))
                continue
            if place:
                yield Task(place, level, tuple(waits_for))
            if tag == "task":
                place, level, waits_for = int(fields[0]), int(fields[1]), []

    # What the text itself says.

    def _own_rows(self) -> Iterator[list[str]]:
        """The rows of the text, without quotes and empty lines, one after another."""
        lines = TextIOWrapper(BytesIO(self.text), "latin-1", newline="")
        lines.seek(len(_MARK) if self.text.startswith(_MARK) else 0)
        return (row for row in csv.reader(lines) if row)

    def _sound_rows(self) -> Iterator[list[str]]:
        """The same, but a text with a fault raises it."""
        native.plan(self.text)
        return self._own_rows()

    @cached_property
    def rows(self) -> list[list[str]]:
        """The rows of the text, without quotes and empty lines. A text with a fault raises it."""
        return [*self._sound_rows()]

    @property
    def date(self) -> date:
        """The settlement day, by the first rows alone: a fault behind them is not looked for."""
        rows = [row for _, row in zip(range(2), self._own_rows())]
        if [row[:1] for row in rows] != [["format"], ["day"]] or len(rows[1]) != 3:
            rows = self.rows
        try:
            return date.fromisoformat(rows[1][1])
        except ValueError:
            return date.fromisoformat(self.rows[1][1])

    def rules(self) -> Rules:
        """What stands before the accounts."""
        return Rules.of(self._sound_rows())

    def accounts(self) -> Iterator[Account]:
        """The accounts before the day, by rising number, one after another."""
        return _accounts(self._sound_rows())

    def instructions(self) -> Iterator[Instruction]:
        return (Instruction.of(fields) for tag, *fields in self._sound_rows() if tag == "do")


def refusals(log: Iterable[LogRow]) -> dict[str, int]:
    """How many instructions each check has refused."""
    counts: dict[str, int] = {}
    for row in log:
        if isinstance(row.outcome, Refused):
            counts[row.outcome.name] = counts.get(row.outcome.name, 0) + 1
    return counts
