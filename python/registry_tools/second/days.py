"""What a day is: its rules, its accounts and its instructions, as the second answer reads them of a text without a
fault."""
import bisect
import codecs
import csv
import datetime
import io
import sys
from dataclasses import dataclass, field
from typing import Callable, Iterable, Iterator, TypeVar

from registry_tools import tables

T = TypeVar("T")

KINDS = tables.ALLOWANCES
HOLDERS = {"operator", "aircraft", "trading"}
OPERATORS = {"operator", "aircraft"}


@dataclass
class Row:
    """A surrender, which is for a period, or a deletion, which is for none."""

    what: str
    kind: str
    amount: int
    date: datetime.date
    is_reversed: bool
    period: int | None


@dataclass
class Account:
    """An account: what it is, what it holds, and the rows of its lists."""

    number: int
    kind: str
    holder: int
    status: str
    outside: bool
    waiver: bool
    held: dict[str, int]
    corrections: dict[int, int]
    users: dict[int, str] = field(default_factory=dict)
    trusted: dict[int, datetime.date] = field(default_factory=dict)
    rows: dict[int, Row] = field(default_factory=dict)
    emissions: dict[int, int] = field(default_factory=dict)
    figures: dict[int, int] = field(default_factory=dict)

    def retired(self, what: str, kind: str) -> int:
        """What the account has surrendered, or deleted, of a kind."""
        rows = (row for row in self.rows.values() if (row.what, row.kind) == (what, kind))
        return sum(row.amount for row in rows if not row.is_reversed)

    def surrendered_for(self, period: int) -> int:
        """How many allowances are surrendered for a period."""
        return sum(row.amount for row in self.rows.values() if not row.is_reversed and row.period == period)

    def trusts(self, other: "Account", date: datetime.date) -> bool:
        """Whether a transfer to another account is one to a trusted account on a date."""
        return self.holder == other.holder or self.trusted.get(other.number, datetime.date.max) <= date


@dataclass
class Instruction:
    """A `do` row. `first` is FROM or the one account; `shares` has the accounts that receive, and how many
    allowances. What its act does not have is None."""

    fields: list[str]
    proposed: datetime.date
    proposer: int
    approver: int | None
    act: str
    first: int
    shares: list[tuple[int, int]] = field(default_factory=list)
    other: int | None = None
    kind: str | None = None
    amounts: list[int] = field(default_factory=list)
    number: int | None = None
    status: str | None = None
    year: int | None = None
    tonnes: int | None = None

    @property
    def row(self) -> str:
        """The row of a day text that tells it."""
        return ",".join(["do", *self.fields])


@dataclass
class Day:
    """A day text; the accounts change while the day is settled."""

    date: datetime.date
    next_record: int
    periods: list[tuple[int, int]] = field(default_factory=list)
    current: int = 1
    lags: dict[str, int] = field(default_factory=dict)
    pairs: set[tuple[str, str]] = field(default_factory=set)
    admins: set[int] = field(default_factory=set)
    working_days: list[datetime.date] = field(default_factory=list)
    accounts: dict[int, Account] = field(default_factory=dict)
    instructions: list[Instruction] = field(default_factory=list)

    def due(self, date: datetime.date, lag: int) -> datetime.date | None:
        """The working day on or after `date` that so many working days come before, from `date` on; None if there is
        none."""
        place = bisect.bisect_left(self.working_days, date) + lag
        return self.working_days[place] if place < len(self.working_days) else None

    def period_of(self, year: int) -> int | None:
        """The period that has a year, counted from 1; None if none has."""
        for place, (first, last) in enumerate(self.periods, 1):
            if first <= year <= last:
                return place
        return None

    def figure(self, account: Account, year: int) -> int | None:
        """The compliance status figure of a year in a period; None if emissions are missing, or if there is no such
        period."""
        period = self.period_of(year)
        if period is None:
            return None
        years = range(self.periods[period - 1][0], year + 1)
        emitted = [account.emissions[each] for each in years if each in account.emissions]
        if len(emitted) < len(years):
            return None
        return account.surrendered_for(period) - sum(emitted) + account.corrections.get(period, 0)


def known(value: T | None) -> T:
    """What is there, since a check before has refused all else."""
    assert value is not None
    return value


# Reading.


def fields_in(text: bytes) -> Iterator[list[str]]:
    """The rows of a text, which is given as bytes: lists of fields without their quotes. An empty line is no row."""
    # One letter stands for each byte, since a text with a fault may have any bytes. The reader refuses the byte 0. No
    # valid field has it, nor the byte 1, which stands in its place: so the faults are the same.
    letters = text.removeprefix(codecs.BOM_UTF8).replace(b"\0", b"\1").decode("latin-1")
    # A field may be as long as the text.
    csv.field_size_limit(sys.maxsize)
    return filter(None, csv.reader(io.StringIO(letters, newline="")))


def day_in(text: bytes) -> Day:
    """The day of a text without a fault."""
    return day_of_fields(fields_in(text))


def day_of_fields(rows: Iterable[list[str]]) -> Day:
    """The day of these rows, each a list of fields: a row `day` stands before all that are of the day, and a row
    `account` before those of its lists."""
    for tag, *words in rows:
        if tag == "day":
            day = Day(read_date(words[0]), int(words[1]))
        elif tag == "account":
            account = read_account(words)
            day.accounts[account.number] = account
        elif tag == "do":
            day.instructions.append(read_instruction(words))
        elif tag in LIST_ROWS:
            LIST_ROWS[tag](account, words)
        elif tag in HEADING_ROWS:
            HEADING_ROWS[tag](day, words)
    return day


def account_of(rows: Iterable[list[str]]) -> Account:
    """The account of these rows: its `account` row, and those of its lists."""
    (_, *words), *lists = rows
    account = read_account(words)
    for tag, *more in lists:
        LIST_ROWS[tag](account, more)
    return account


def read_date(word: str) -> datetime.date:
    """The date that a word spells."""
    return datetime.date.fromisoformat(word)


def read_account(words: list[str]) -> Account:
    """The account of an `account` row, without its lists."""
    number, kind, holder, status, outside, waiver, correction, general, aviation = words
    held = {"general": int(general), "aviation": int(aviation)}
    switches = outside == "yes", waiver == "yes"
    return Account(int(number), kind, int(holder), status, *switches, held, {1: int(correction)})


def read_row(account: Account, words: list[str]) -> None:
    """Adds a `retired` row to an account."""
    number, what, kind, amount, date, is_reversed, *period = words
    of_period = (int(period[0]) if period else 1) if what == "surrender" else None
    account.rows[int(number)] = Row(what, kind, int(amount), read_date(date), is_reversed == "yes", of_period)


HEADING_ROWS: dict[str, Callable[[Day, list[str]], None]] = {
    "period": lambda day, words: day.periods.append((int(words[0]), int(words[1]))),
    "current": lambda day, words: setattr(day, "current", int(words[0])),
    "lags": lambda day, words: day.lags.update(zip(map(str.lower, tables.LAGS), map(int, words))),
    "surrender": lambda day, words: day.pairs.add((words[0], words[1])),
    "admin": lambda day, words: day.admins.add(int(words[0])),
    "work": lambda day, words: day.working_days.append(read_date(words[0])),
}
LIST_ROWS: dict[str, Callable[[Account, list[str]], None]] = {
    "correction": lambda account, words: account.corrections.update({int(words[0]): int(words[1])}),
    "user": lambda account, words: account.users.update({int(words[0]): words[1]}),
    "trusted": lambda account, words: account.trusted.update({int(words[0]): read_date(words[1])}),
    "retired": read_row,
    "emissions": lambda account, words: account.emissions.update({int(words[0]): int(words[1])}),
    "figure": lambda account, words: account.figures.update({int(words[0]): int(words[1])}),
}


def read_instruction(words: list[str]) -> Instruction:
    """The instruction of a `do` row."""
    proposed, proposer, approver, act, first, *rest = words
    i = Instruction(words, read_date(proposed), int(proposer), int(approver) if approver else None, act, int(first))
    if act in ("transfer", "return", "central"):
        i.kind, i.shares = rest[1], [(int(rest[0]), int(rest[2]))]
    elif act == "distribute":
        i.kind, i.shares = rest[0], [(int(to), int(amount)) for to, amount in zip(rest[1::2], rest[2::2])]
    elif act in ("surrender", "delete", "create"):
        i.kind, i.amounts = rest[0], [int(rest[1])]
    elif act == "reverse":
        i.number = int(rest[0])
    elif act in ("trust", "untrust"):
        i.other = int(rest[0])
    elif act == "status":
        i.status = rest[0]
    elif act == "emissions":
        i.year, i.tonnes = map(int, rest)
    else:
        i.year = int(rest[0])
    i.amounts = i.amounts or [amount for _, amount in i.shares]
    return i
