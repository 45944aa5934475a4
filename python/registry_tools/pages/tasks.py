"""What holders have to do, and by when, as their letters begin with it."""
import datetime
from collections import defaultdict
from collections.abc import Iterator
from dataclasses import dataclass

from registry_tools.calendars.deadlines import DueDates
from registry_tools.office import close
from registry_tools.pages.settled import long_date
from registry_tools.pairs.compliance import Stand, standings
from registry_tools.questions.due import OVERDUE, SURRENDER_FOR, deadlines
from registry_tools.texts.day_text import DayText
from registry_tools.texts.in_words import grouped
from registry_tools.texts.namebook import Labels
from registry_tools.texts.report import Report


@dataclass(frozen=True)
class Task:
    """Something to do for an account: by when, if there is a deadline, and whether that is over."""

    account: int
    what: str
    date: datetime.date | None = None
    is_overdue: bool = False

    def __str__(self) -> str:
        when = "" if self.date is None else f"{'Overdue since' if self.is_overdue else 'By'} {long_date(self.date)}: "
        return f"{when}{self.what} (account {self.account})."


def tasks_of(due: DueDates, day: DayText, report: Report, ask: Stand = standings) -> dict[int, list[Task]]:
    """What is to be done for each account behind a day: by the deadlines of the office, and what is missing without
    one; what is overdue first. `ask` says how the accounts stand."""
    found: dict[int, list[Task]] = defaultdict(list)
    for each in deadlines(due, day, report, Labels(), ask):
        if each.account is not None:
            found[each.account].append(Task(each.account, each.todo, each.date, each.what == OVERDUE))
    for task in [] if due.surrender else without_deadline(day, report):
        found[task.account].append(task)
    for tasks in found.values():
        tasks.sort(key=lambda task: (not task.is_overdue, task.date or datetime.date.max))
    return found


def without_deadline(day: DayText, report: Report) -> Iterator[Task]:
    """What is missing for the last year that is over of each period."""
    for block in report.book.values():
        for year, missing in close.missing_of(day.head, block.account()):
            yield Task(block.number, SURRENDER_FOR.format(grouped(missing), year))
