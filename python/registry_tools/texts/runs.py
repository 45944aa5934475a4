"""Accounts that stand in two texts with the same rows, found in runs: of a million rows of a book most are as they were
the day before, and many are compared at once."""
import bisect
import operator
from collections.abc import Iterator, Sequence
from typing import NamedTuple

from registry_tools.texts.blocks import Block
from registry_tools.texts.rows import Rows

# How many rows are compared at once: few where something was different, and then more and more.
FEW, MANY = 64, 16_384
# How the row behind the last account begins.
BEHIND = ("do,", "totals,", "end")
# By what accounts rise in a text.
BY_PLACE, BY_NUMBER = operator.attrgetter("index"), operator.attrgetter("number")


class Run(NamedTuple):
    """Accounts that have the same rows as known ones, and how many rows later they stand; or, without any, the places
    of the first row of an account and of the row behind it."""

    same: Sequence[Block]
    shift: int
    start: int
    behind: int

    def add_to(self, book: dict[int, Block], source: Rows) -> None:
        """Adds those that are the same to the book of their text."""
        shift = self.shift
        for block in self.same:
            book[block.number] = Block(block.number, source, block.index + shift, block.count)

    def places(self) -> list[tuple[int, int]]:
        """The places of each of its accounts: of the first row, and of the row behind it."""
        same = [(block.index + self.shift, block.behind + self.shift) for block in self.same]
        return same or [(self.start, self.behind)]


def equal_rows(rows: Sequence[str], first: int, others: Sequence[str], place: int) -> int:
    """How many rows are equal from two places on."""
    count, size = 0, FEW
    while True:
        rows_here, other = rows[first + count : first + count + size], others[place + count : place + count + size]
        if rows_here != other:
            shorter = min(len(rows_here), len(other))
            return count + next((at for at in range(shorter) if rows_here[at] != other[at]), shorter)
        count += len(rows_here)
        if len(rows_here) < size:
            return count
        size = min(2 * size, MANY)


def runs_of(rows: Sequence[str], first: int, known: Sequence[Block]) -> Iterator[Run]:
    """The accounts that begin at this row, in runs. The known ones stand one behind another in one text, rising."""
    place, at = first, 0
    while is_account(rows, place):
        end = at
        if at < len(known):
            begin = known[at].index
            same = equal_rows(rows, place, known[at].source.rows, begin)
            end = at + whole_accounts(known, at, begin + same, same)
            if end > at and known[end - 1].behind == begin + same and not ends_account(rows, place + same):
                end -= 1
        if end > at:
            stop = place + known[end - 1].behind - known[at].index
            yield Run(known[at:end], place - known[at].index, place, stop)
        else:
            stop = place + 1
            while not ends_account(rows, stop):
                stop += 1
            yield Run((), 0, place, stop)
            end = at + passed(known, at, rows[place])
        place, at = stop, end


def whole_accounts(known: Sequence[Block], at: int, stop: int, same: int) -> int:
    """How many of the known accounts from this place on end at a row or before it, where `same` rows lie between."""
    behind = bisect.bisect_right(known, stop, at, min(len(known), at + same + 1), key=BY_PLACE)
    return behind - at - (behind > at and known[behind - 1].behind > stop)


def is_account(rows: Sequence[str], place: int) -> bool:
    """Whether an account begins at this row."""
    return place < len(rows) and rows[place].startswith("account,")


def ends_account(rows: Sequence[str], place: int) -> bool:
    """Whether the account before this row has no more rows."""
    return place >= len(rows) or is_account(rows, place) or rows[place].startswith(BEHIND)


def passed(known: Sequence[Block], at: int, row: str) -> int:
    """How many of the known accounts from this place on are not behind the account of a row."""
    word = row.split(",", 2)[1]
    number = int(word) if word.isdecimal() and word.isascii() else 0
    if at < len(known) and known[at].number >= number:
        return int(known[at].number == number)
    return bisect.bisect_right(known, number, at, key=BY_NUMBER) - at


def unlike(old: dict[int, Block], new: dict[int, Block], others: list[int] | None = None) -> list[int]:
    """The accounts of a text that have other rows than in an older one, or are new. Each of both books is that of one
    text. `others` are those that may be, if they are known."""
    numbers = apart(old, [*new.values()]) if others is None else others
    return [number for number in numbers if number not in old or old[number].rows != new[number].rows]


def apart(old: dict[int, Block], blocks: list[Block]) -> list[int]:
    """The accounts of a text that do not stand in runs of an older one."""
    if not blocks:
        return []
    numbers, place = [], 0
    for run in runs_of(blocks[0].source.rows, blocks[0].index, [*old.values()]):
        if run.same:
            place += len(run.same)
        else:
            numbers.append(blocks[place].number)
            place += 1
    return numbers
