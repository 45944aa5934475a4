"""What the accounts of a book have together, and which of their surrenders and deletions can be reversed.

The rows are taken apart here and not read into accounts: a book may have a million of them.
"""
from collections import Counter
from collections.abc import Iterable, Iterator
from typing import NamedTuple

from registry_tools.second import rules
from registry_tools.tables import RETIRED_AS
from registry_tools.texts.accounts import Block
from registry_tools.texts.report import Report


class Retired(NamedTuple):
    """A surrender or deletion of a block: its place among the rows, and its fields as they are spelled."""

    place: int
    number: str
    what: str
    kind: str
    amount: str
    date: str
    is_reversed: str


def retired_of(block: Block) -> Iterator[Retired]:
    """The `retired` rows of an account."""
    for place, row in enumerate(block.list_rows, 1):
        if row.startswith("retired,"):
            number, what, kind, amount, date, is_reversed = row.split(",")[1:7]
            yield Retired(place, number, what, kind, amount, date, is_reversed)


class Sums(NamedTuple):
    """What accounts hold together, have surrendered and have deleted of a kind, without what was reversed."""

    held: int
    surrendered: int
    deleted: int

    @property
    def allowances(self) -> int:
        """How many there are: held and surrendered together."""
        return self.held + self.surrendered


def sums_of(rows: Iterable[str]) -> dict[str, Sums]:
    """The sums over the accounts of these rows, by kind."""
    held = dict.fromkeys(rules.KINDS, 0)
    retired = {(what, kind): 0 for what in RETIRED_AS for kind in rules.KINDS}
    for row in rows:
        # (only these two of the rows of a book begin with these letters)
        if row[0] == "r":
            _, _, what, kind, amount, _, is_reversed, *_ = row.split(",")
            if is_reversed == "no":
                retired[what, kind] += int(amount)
        elif row[0] == "a":
            general, aviation = row.split(",", 10)[8:10]
            held["general"] += int(general)
            held["aviation"] += int(aviation)
    return {kind: Sums(held[kind], retired["surrender", kind], retired["deletion", kind]) for kind in rules.KINDS}


def sums_told(report: Report) -> dict[str, Sums]:
    """The sums over the accounts of a report, as its totals tell them: they were compared."""
    return {kind: Sums(*numbers) for kind, numbers in report.totals.items()}


class Movements:
    """What the creations, deletions and reversals of deletions of a report changed, by kind of allowance."""

    def __init__(self, report: Report) -> None:
        self.created: Counter[str] = Counter()
        self.deleted: Counter[str] = Counter()
        self.undeleted: Counter[str] = Counter()
        # By account and record number: the kind and the amount.
        self.deletions: dict[int, dict[int, tuple[str, int]]] = {}
        self.report = report
        for logged in report.log:
            i = logged.instruction
            if not logged.is_done:
                continue
            if i.act == "create":
                self.created[rules.known(i.kind)] += i.amounts[0]
            elif i.act == "delete":
                self.deleted[rules.known(i.kind)] += i.amounts[0]
            elif i.act == "reverse":
                self.add_reversal(i)

    def add_reversal(self, i: rules.Instruction) -> None:
        """Adds a reversal, if it is that of a deletion."""
        if i.first not in self.deletions:
            self.deletions[i.first] = deletions_of(self.report.book.get(i.first))
        kind, amount = self.deletions[i.first].get(rules.known(i.number), (rules.KINDS[0], 0))
        self.undeleted[kind] += amount


def deletions_of(block: Block | None) -> dict[int, tuple[str, int]]:
    """The kind and the amount of each deletion of a block, if there is one, by its record number."""
    rows = retired_of(block) if block else ()
    return {int(row.number): (row.kind, int(row.amount)) for row in rows if row.what == "deletion"}


def open_by_late_begin(head: rules.Day, book: dict[int, Block]) -> Iterator[tuple[Block, int]]:
    """The surrenders and deletions from before the calendar of a day that could be reversed on it: the block of each,
    and its place in the block. When their window ended is not known."""
    first = head.working_days[0] if head.working_days else None
    end = first and head.due(first, head.lags["reversal"])
    if first is None or (end is not None and end < head.date):
        return
    sources = {id(block.source): block.source for block in book.values()}
    if any(is_early(row, str(first)) for source in sources.values() for row in source.rows if row[0] == "r"):
        for block in book.values():
            for row in retired_of(block):
                if row.is_reversed == "no" and row.date < str(first):
                    yield block, row.place


def is_early(row: str, first: str) -> bool:
    """Whether a surrender or deletion of a book is from before a date, and was not reversed."""
    _, _, _, _, _, date, is_reversed, *_ = row.split(",")
    return is_reversed == "no" and date < first
