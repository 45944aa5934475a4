"""The fields of the rows of a day text: how each is read, and what it may hold, in words. It was written from
docs/FORMATS.md, and not from the program or its definitions."""
import datetime
import re
from dataclasses import dataclass, replace
from typing import Callable, Generic, Iterable, Sequence, TypeVar

from registry_tools import tables
from registry_tools.second.days import KINDS
from registry_tools.tables import (
    FIRST_YEAR, LAST_YEAR, MOST_CORRECTION, MOST_FIGURE, MOST_HELD, MOST_LAG, MOST_NUMBER, MOST_RECORD, MOST_RETIRED,
    MOST_SHARES, MOST_TONNES, MOST_U64, RETIRED_AS, RIGHTS, YES_NO,
)  # fmt: skip

MOST_DIGITS = len(str(MOST_U64))
ACCOUNT_KINDS, STATUSES = (*tables.KINDS,), (*tables.STATUSES,)
LISTS = ("lags", "surrender", "admin", "work")
BLOCK = ("account", "correction", "user", "trusted", "retired", "emissions", "figure")


class Fault(Exception):
    """The cause why a row cannot stand where it does; the place of the faulty field, counted from 1, with its name,
    where it is a field's; and what is expected, in words."""

    def __init__(self, cause: str, expected: str = "", place: int = 0, name: str = "") -> None:
        super().__init__(cause)
        self.cause, self.expected, self.place, self.name = cause, expected, place, name
        # Of an `order` fault, the row before it in its list; of a record number above NEXT, the highest one: if they
        # are known.
        self.earlier, self.highest = "", 0


# What fields say, as they are read.
Value = str | int
V = TypeVar("V", bound=Value)
V_co = TypeVar("V_co", bound=Value, covariant=True)


# (one is made for some rows: frozen, that would take twice the time)
@dataclass
class Field(Generic[V_co]):
    """A field of a row: its name, how it is read, and what it may hold, in words; and the numbers or the words that it
    may hold. A date has neither."""

    name: str
    read: Callable[[str], V_co]
    expected: str
    numbers: tuple[range, ...] = ()
    words: Sequence[str] = ()

    def called(self, name: str) -> "Field[V_co]":
        """The same field with another name."""
        return replace(self, name=name)


# Fields: each is read by a function, which answers what it says.


def is_too_large(digits: str) -> bool:
    """Whether digits are a number that no machine word holds."""
    # (Python does not read numbers of thousands of digits)
    return len(digits) > MOST_DIGITS or int(digits) > MOST_U64


def number(name: str, low: int, high: int) -> Field[int]:
    """A field with a number between two limits."""

    def read(word: str) -> int:
        if not re.fullmatch("0|[1-9][0-9]*", word) or is_too_large(word):
            raise Fault("number")
        if not low <= int(word) <= high:
            raise Fault("limit")
        return int(word)

    expected = f"a number from {low} to {high}, in plain digits"
    if high < low:
        # (as the period of a correction, if the day has one period)
        expected = "no such row: there is no number that it may have here"
    return Field(name, read, expected, (range(low, high + 1),))


def signed(name: str, most: int, may_be_zero: bool = True) -> Field[int]:
    """A field with a number that may be negative."""

    def read(word: str) -> int:
        if not re.fullmatch("0|-?[1-9][0-9]*", word) or is_too_large(word.removeprefix("-")):
            raise Fault("number")
        if abs(int(word)) > most or (int(word) == 0 and not may_be_zero):
            raise Fault("limit")
        return int(word)

    expected = f"a number from -{most} to {most}{'' if may_be_zero else ', but not 0'}, in plain digits"
    numbers = (range(-most, most + 1),) if may_be_zero else (range(-most, 0), range(1, most + 1))
    return Field(name, read, expected, numbers)


def read_date(word: str) -> str:
    """A date as it stands. Raises Fault if it is none, or outside the limits."""
    if not re.fullmatch("[0-9]{4}-[0-9]{2}-[0-9]{2}", word):
        raise Fault("date")
    year, month, day = map(int, word.split("-"))
    try:
        # (the year 0 is a leap year, which Python does not have)
        datetime.date(year or 2000, month, day)
    except ValueError:
        raise Fault("date") from None
    if not FIRST_YEAR <= year <= LAST_YEAR:
        raise Fault("limit")
    return word


def date(name: str) -> Field[str]:
    """A field with a date."""
    return Field(name, read_date, f"a date YYYY-MM-DD that exists, from {FIRST_YEAR}-01-01 to {LAST_YEAR}-12-31")


def one_of(name: str, words: Sequence[str], cause: str = "word") -> Field[str]:
    """A field with one of these words."""

    def read(word: str) -> str:
        if word not in words:
            raise Fault(cause)
        return word

    return Field(name, read, "one of the words " + ", ".join(words) if len(words) > 1 else words[0], words=words)


def maybe(field: Field[V]) -> Field[V | str]:
    """A field that may be empty."""

    def read(word: str) -> V | str:
        return field.read(word) if word else ""

    return Field(field.name, read, f"nothing, or {field.expected}")


def an_account(name: str) -> Field[int]:
    """A field with the number of an account."""
    return number(name, 1, MOST_NUMBER)


user = an_account("USER")
record = number("NUMBER", 1, MOST_RECORD)
year = number("YEAR", FIRST_YEAR, LAST_YEAR)
any_amount = number("AMOUNT", 0, MOST_U64)
kind = one_of("KIND", KINDS)
status = one_of("STATUS", STATUSES)

# The fields of each row behind its tag; what depends on earlier rows is in `Reading.fields`.
FIELDS: dict[str, list[Field[Value]]] = {
    "format": [one_of("VERSION", ("1", "2"), "version")],
    "day": [date("DATE"), number("NEXT", 1, MOST_RECORD + 1)],
    "period": [year.called("FIRST"), year.called("LAST")],
    "lags": [number(name, 0, MOST_LAG) for name in tables.LAGS],
    "surrender": [one_of("ACCOUNTKIND", ACCOUNT_KINDS), kind],
    "admin": [user],
    "work": [date("DATE")],
    "account": [
        an_account("NO"), one_of("KIND", ACCOUNT_KINDS), an_account("HOLDER"), status, one_of("OUTSIDE", YES_NO),
        one_of("WAIVER", YES_NO), signed("CORRECTION", MOST_CORRECTION), number("GENERAL", 0, MOST_HELD),
        number("AVIATION", 0, MOST_HELD),
    ],
    "user": [user, one_of("RIGHT", RIGHTS)],
    "trusted": [an_account("NO"), date("DATE")],
    "retired": [
        record, one_of("WHAT", RETIRED_AS), kind, number("AMOUNT", 1, MOST_RETIRED), date("DATE"),
        one_of("REVERSED", YES_NO),
    ],
    "emissions": [year, number("TONNES", 0, MOST_TONNES)],
    "figure": [year, signed("FIGURE", MOST_FIGURE)],
    "end": [],
}  # fmt: skip
PROPOSAL: list[Field[Value]] = [date("PROPOSED"), an_account("PROPOSER"), maybe(an_account("APPROVER"))]
OF_ACTS: dict[str, Field[Value]] = {
    **{name: an_account(name) for name in ("FROM", "TO", "ACCOUNT", "OTHER")}, "KIND": kind, "AMOUNT": any_amount,
    "NUMBER": record, "STATUS": status, "YEAR": year, "TONNES": any_amount.called("TONNES"),
}  # fmt: skip
ACTS = {act.word: [OF_ACTS[name] for name in act.fields.split()] for act in tables.ACTS}
FEWEST_SHARES, DISTRIBUTE = 1, tables.DISTRIBUTE
ACT_WORDS = (*ACTS,)
act = one_of("ACT", ACT_WORDS)
RISING = {"surrender", "admin", "work", *BLOCK}


def fields_of_act(word: str, count: int) -> list[Field[Value]] | None:
    """The fields of an act that has so many; None if it cannot have so many."""
    if word != DISTRIBUTE:
        return ACTS[word] if count == len(ACTS[word]) else None
    shares, odd = divmod(count - 2, 2)
    if odd or not FEWEST_SHARES <= shares <= MOST_SHARES:
        return None
    return [*ACTS[word][:2], *ACTS[word][2:] * shares]


def form_of(tag: str, fields: Iterable[Field[Value]]) -> str:
    """A row as docs/FORMATS.md shows it."""
    return ",".join([tag, *(field.name for field in fields)])


def forms_of_act(word: str) -> str:
    """The forms of a `do` row with this act, as a fault tells them."""
    more = f",.. with TO,AMOUNT 1 to {MOST_SHARES} times" if word == DISTRIBUTE else ""
    return form_of("do", [*PROPOSAL, act.called(word), *ACTS[word]]) + more
