"""What is changed between two texts, row by row: in what two accounts differ, what people changed by hand between a
settled day and the next one, and what of that they may change, by the table of it. All that compare accounts, or tell
of changes by hand, ask here."""
from dataclasses import dataclass
from typing import Iterator, NamedTuple, Sequence

from registry_tools import tables
from registry_tools.errors import FileFault, shown
from registry_tools.second.faults import BLOCK, FIELDS
from registry_tools.tables import ADD, CHANGE, LEAVE_OUT
from registry_tools.texts.accounts import Block
from registry_tools.texts.day_text import DayText
from registry_tools.texts.report import Report
from registry_tools.texts.runs import unlike

ACCOUNT_FIELDS = ["tag", *(field.name for field in FIELDS["account"])]
NO_ROW = "no such row"
GONE, NEW = "-", "+"
# The row that is another one on each day by itself.
OF_THE_DAY = "day,"
WORDS = (ADD, CHANGE, LEAVE_OUT)


@dataclass(frozen=True)
class Difference:
    """A field of the `account` row that is another one, or a row of a list that is another one, new or left out.
    `place` is that of the row among those before and after; the first row has the place 0."""

    tag: str
    # Of a row of a list, nothing: the whole row is meant.
    field: str
    before: str
    after: str
    place_before: int | None
    place_after: int | None

    @property
    def name(self) -> str:
        """The name of what differs: a field, or the row of a list."""
        return self.field or f"{self.tag} row"

    @property
    def what(self) -> str:
        """What was done: a row was added or left out, or something was changed."""
        if self.place_before is None:
            return ADD
        return LEAVE_OUT if self.place_after is None else CHANGE

    @property
    def found(self) -> str:
        """What is there, as a fault tells it."""
        return NO_ROW if self.place_after is None else shown(self.after)

    @property
    def expected(self) -> str:
        """What was there before, as a fault tells it."""
        return NO_ROW if self.place_before is None else shown(self.before)


def differences_of(before: Sequence[str], after: Sequence[str]) -> Iterator[Difference]:
    """The differences between the rows of an account before and after."""
    if before == after:
        return
    fields = zip(ACCOUNT_FIELDS, before[0].split(","), after[0].split(","))
    for name, old, new in fields:
        if old != new:
            yield Difference("account", name, old, new, 0, 0)
    old_rows, new_rows = places_by_key(before), places_by_key(after)
    for tag in BLOCK[1:]:
        yield from differences_of_list(tag, old_rows.get(tag, {}), new_rows.get(tag, {}))


def differences_of_list(
    tag: str, before: dict[str, tuple[int, str]], after: dict[str, tuple[int, str]]
) -> Iterator[Difference]:
    """The differences between the rows of one list before and after: those that are there behind, then those that
    went."""
    for key, (place, row) in after.items():
        line, written = before.get(key, (None, ""))
        if written != row:
            yield Difference(tag, "", written, row, line, place)
    for key, (place, row) in before.items():
        if key not in after:
            yield Difference(tag, "", row, "", place, None)


def places_by_key(rows: Sequence[str]) -> dict[str, dict[str, tuple[int, str]]]:
    """The rows of each list with their places, by the field by which they rise."""
    places: dict[str, dict[str, tuple[int, str]]] = {}
    for place, row in enumerate(rows[1:], 1):
        tag, key, *_ = row.split(",", 2)
        places.setdefault(tag, {})[key] = (place, row)
    return places


# What people changed between a settled day and the text of the next one.


class HandChange(NamedTuple):
    """A row that went (-) or came (+): of an account, or of the rules if there is no account."""

    account: int | None
    sign: str
    row: str

    @property
    def words(self) -> str:
        """The row behind its sign."""
        return f"{self.sign} {self.row}"


def rows_changed(account: int | None, before: Sequence[str], after: Sequence[str]) -> Iterator[HandChange]:
    """The rows that went, and then those that came."""
    old, new = {*before}, {*after}
    yield from (HandChange(account, GONE, row) for row in before if row not in new)
    yield from (HandChange(account, NEW, row) for row in after if row not in old)


def account_changed(before: Report, day: DayText, number: int) -> Iterator[HandChange]:
    """What was changed of an account; of a new one, all its rows came."""
    old, new = before.book.get(number), day.book.get(number)
    if new is not None and not is_same(old, new):
        yield from rows_changed(number, old.rows if old else [], new.rows)


def is_same(old: Block | None, new: Block) -> bool:
    """Whether an account is there, and has the same rows."""
    return old is not None and old.rows == new.rows


def between(rules_before: Sequence[str], before: Report, day: DayText) -> Iterator[HandChange]:
    """All changes between a day and the next one. `rules_before` are the rows before the accounts of the day before."""
    headings = [[row for row in rows if not row.startswith(OF_THE_DAY)] for rows in (rules_before, day.heading)]
    yield from rows_changed(None, *headings)
    for number in unlike(before.book, day.book):
        yield from account_changed(before, day, number)


# What of that may be changed by hand. What an act does may not be done by hand.


@dataclass(frozen=True)
class Rule:
    """What of a field, or of the rows of a list, may be done by hand, and which acts do the rest."""

    by_hand: frozenset[str]
    acts: tuple[str, ...]

    def why_not(self, difference: Difference) -> str:
        """Why a difference may not be made by hand; nothing if it may."""
        if difference.what in self.by_hand:
            return ""
        if not self.acts:
            return "nothing changes it, and no act either"
        acts = f"the act {self.acts[0]} does" if len(self.acts) == 1 else f"the acts {', '.join(self.acts)} do"
        may = [tag for tag in WORDS if tag in self.by_hand]
        return f"{acts} that, and nobody by hand" + (f", who may only {' or '.join(may)} it" if may else "")


# The rule of each field of the `account` row, and of each list, whose field is empty.
RULES_BY_HAND = {
    (by_hand.tag, field): Rule(frozenset(by_hand.by_hand), tuple(by_hand.acts.split()))
    for by_hand in tables.BY_HAND
    for field in by_hand.fields.split() or [""]
}


def why_not(difference: Difference) -> str:
    """Why a difference may not be made by hand; nothing if it may."""
    return RULES_BY_HAND[difference.tag, difference.field].why_not(difference)


def as_opened(rows: list[str]) -> list[str]:
    """The rows of an account as if it were just opened: all else of it is added, or changed."""
    fields = rows[0].split(",")
    return [",".join([*fields[:4], "open", *fields[5:8], "0", "0"])]


def refusals(old: Block | None, new: Block) -> Iterator[FileFault]:
    """What of an account may not be changed by hand, each as a fault of its text."""
    for difference in differences_of(old.rows if old else as_opened(new.rows), new.rows):
        why = why_not(difference)
        if why:
            line, before = new.line_of(difference.place_after or 0), difference.place_before or 0
            where = f"as {old.source.path}:{old.line_of(before)}" if old else "as in each new account"
            name, expected = f"{difference.name} of account {new.number}", f"{difference.expected}, {where}: {why}"
            yield FileFault(new.source.path, line, name, difference.found, expected)
