"""What an account held after a day, of each kind, and what it had surrendered and deleted."""
import datetime

from registry_tools.errors import WordsFault
from registry_tools.questions.days import Days
from registry_tools.questions.records import sums_after
from registry_tools.second import rules
from registry_tools.showing import Cell


def balance(days: Days, account: int, on: datetime.date | None = None) -> list[list[Cell]]:
    """A row for each kind of allowance, after the last day up to a date: the day, account, kind, and what it holds, has
    surrendered and has deleted. Raises WordsFault if there is no such day or account."""
    date = days.last_until(on or datetime.date.max)
    if date is None:
        raise WordsFault("no day is settled yet" if on is None else f"no day was settled up to {on}")
    sums = sums_after(days.database, account, date)
    if sums is None:
        raise WordsFault(f"there is no account {account} after {date}")
    return [[str(date), account, kind, *sums[kind]] for kind in rules.KINDS]
