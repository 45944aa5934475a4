"""What several days together gave: of each how many instructions were done, what was refused, the allowances after it,
and what people changed before it."""
import datetime
from collections import Counter
from dataclasses import dataclass, field

from registry_tools.calendars.due_days import NOT_DUE
from registry_tools.questions.days import Days
from registry_tools.questions.records import hand_changes
from registry_tools.texts.changes import HandChange

COUNTED = (
    "SELECT date, name, count(*) FROM instructions JOIN log USING (record) WHERE date BETWEEN ? AND ?"
    " GROUP BY date, name ORDER BY date, min(record)"
)
TOTALS = "SELECT date, kind, held + surrendered FROM totals WHERE date BETWEEN ? AND ?"


HELD = "SELECT date, kind, held FROM totals WHERE date > ? ORDER BY date"
NTH = "SELECT date FROM days ORDER BY date DESC LIMIT 1 OFFSET ?"


def held_over(days: Days, count: int) -> list[tuple[datetime.date, dict[str, int]]]:
    """What all accounts held, by kind, after each of so many last days."""
    first = days.database.execute(NTH, (count,)).fetchone()
    found: dict[datetime.date, dict[str, int]] = {}
    for date, kind, held in days.database.execute(HELD, (first[0] if first else "",)):
        found.setdefault(datetime.date.fromisoformat(date), {})[kind] = held
    return [*found.items()]


@dataclass
class DayOfMonth:
    """How many instructions of a day were done and only wait, the checks that refused others, the allowances after it,
    and what people changed before it."""

    date: datetime.date
    done: int = 0
    waiting: int = 0
    refused: Counter[str] = field(default_factory=Counter)
    allowances: dict[str, int] = field(default_factory=dict)
    changes: list[HandChange] = field(default_factory=list)


def month(days: Days, begin: datetime.date, end: datetime.date) -> list[DayOfMonth]:
    """The days from one on, and up to another one."""
    span, found = (str(begin), str(end)), {str(date): DayOfMonth(date) for date in days.between(begin, end)}
    for date, name, count in days.database.execute(COUNTED, span):
        if name is None:
            found[date].done = count
        elif name == NOT_DUE:
            found[date].waiting = count
        else:
            found[date].refused[name] = count
    for date, kind, allowances in days.database.execute(TOTALS, span):
        found[date].allowances[kind] = allowances
    for date, change in hand_changes(days.database, "date BETWEEN ? AND ?", *span):
        found[date].changes.append(change)
    return [*found.values()]
