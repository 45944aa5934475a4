"""Whether a determined figure is outdated: whether emissions that it counts changed after it was determined.

A `figure` row does not say when it was determined. The log of the day may; else the surrenders do: each is in the book
with its record number, so the figure was right at some point in their order, or emissions or the correction factor are
others since.
"""
from collections import defaultdict
from typing import NamedTuple

from registry_tools.second import rules
from registry_tools.texts.day_text import DayText
from registry_tools.texts.report import Report

# Of more possible sums none is looked for: then the figure counts as right.
MOST_SUMS = 4_096


class Entry(NamedTuple):
    """An entry of emissions, or an assessment, of a day: the year, and by how many tonnes the entry changed them."""

    act: str
    year: int
    change: int


class Entries:
    """The entries of emissions and the assessments that were done on a day, by account, in their order."""

    def __init__(self, day: DayText, report: Report) -> None:
        self.of: dict[int, list[Entry]] = defaultdict(list)
        tonnes: dict[tuple[int, int], int] = {}
        for logged in report.log:
            i = logged.instruction
            if not logged.is_done or i.act not in ("emissions", "assess"):
                continue
            change, year = 0, rules.known(i.year)
            if i.act == "emissions":
                before, now = tonnes.get((i.first, year)), rules.known(i.tonnes)
                change = now - (emissions_before(day, i) if before is None else before)
                tonnes[i.first, year] = now
            self.of[i.first].append(Entry(i.act, year, change))

    def have_changed(self, number: int, first_year: int, year: int) -> bool | None:
        """Whether emissions up to a year changed behind its last assessment; None if the day does not tell."""
        entries = self.of.get(number)
        if entries is None:
            return None
        last = max((place for place, entry in enumerate(entries) if entry[:2] == ("assess", year)), default=-1)
        changes: dict[int, int] = defaultdict(int)
        for later in entries[last + 1 :]:
            if first_year <= later.year <= year:
                changes[later.year] += later.change
        if any(changes.values()):
            return True
        return None if last < 0 else False


def emissions_before(day: DayText, i: rules.Instruction) -> int:
    """The emissions of the year of an instruction before the day; -1 if none are entered."""
    block = day.book.get(i.first)
    start = f"emissions,{i.year},"
    row = next((row for row in block.list_rows if row.startswith(start)), None) if block else None
    # (a year without an entry had no tonnes, and no figure either)
    return int(row.removeprefix(start)) if row else -1


def was_once_right(account: rules.Account, period: int, determined: int, emitted: int) -> bool:
    """Whether a figure was right at some point in the order of the surrenders of its period. A reversed one may have
    counted then, or not any more."""
    wanted = determined + emitted - account.corrections.get(period, 0)
    sums = {0}
    for _, row in sorted(account.rows.items()):
        if wanted in sums or len(sums) > MOST_SUMS:
            return True
        if row.period == period:
            # (amounts are above 0, so a sum above the wanted one stays above it)
            more = {part + row.amount for part in sums if part + row.amount <= wanted}
            sums = sums | more if row.is_reversed else more
    return wanted in sums or len(sums) > MOST_SUMS
