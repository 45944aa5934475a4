"""The changes by hand of a folder: when, by whom, which login approved it if another one had to, why, and which; those
that are handed in for the next day last. Of paths, the rows that went and came between the days."""
from collections.abc import Iterator, Sequence

from registry_tools import tables
from registry_tools.office import approvals, intake
from registry_tools.office.intake import CHANGES, EDITS, HandedIn, Item
from registry_tools.office.office import Office
from registry_tools.showing import Cell
from registry_tools.store.texts import Pair

COLUMNS = tables.COLUMNS["changes"]
NEXT, OF_RULES = "next day", "the rules"


def changes_of_pairs(pairs: Sequence[Pair]) -> Iterator[list[Cell]]:
    """The changes between the days of pairs of paths."""
    from registry_tools.store.past import read_all

    for past_day in read_all(pairs):
        for change in past_day.changes():
            yield [str(past_day.date), None, None, None, None, f"{change.account or OF_RULES}: {change.words}"]


def changes_of(office: Office) -> Iterator[list[Cell]]:
    """The changes of a folder, those for the next day last."""
    return (change_row(*item) for item in items_of(office))


def items_of(office: Office) -> Iterator[tuple[str, Item, str]]:
    """The same as they were handed in, each with its day, and the login that approved it."""
    for event in office.events.days:
        filed = intake.for_a_day(office.store, event)
        yield from ((str(event.date), item, approver_of(filed, item)) for item in filed.items(CHANGES, EDITS))
    handed_in = approvals.handed_in_of(office)
    yield from ((NEXT, item, approver_of(handed_in, item)) for item in handed_in.items(CHANGES, EDITS))


def approver_of(handed_in: HandedIn, item: Item) -> str:
    """The login that approved something that was handed in; nothing, if none did."""
    return next((approval.login for approval in handed_in.approved if approval.place == item.part.start), "")


def change_row(day: str, item: Item, approver: str) -> list[Cell]:
    """A change: a difference with its reason, or a whole account with the name of the file that it came in."""
    part, rows = item.part, item.rows
    more = f" and {len(rows) - 1} rows" if len(rows) > 1 else ""
    return [day, part.at, part.who, approver or None, part.name, f"{rows[0]}{more}"]
