"""When an instruction that waits is due: all commands ask here."""
import bisect
import dataclasses
import datetime
import itertools
from collections import Counter
from pathlib import Path

from registry_tools.errors import FileFault, shown
from registry_tools.findings import Findings
from registry_tools.second import rules
from registry_tools.texts.accounts import Accounts
from registry_tools.texts.day_text import DayText
from registry_tools.texts.report import LogRow, Report

ONE_DAY = datetime.timedelta(1)
NOT_DUE = rules.name_of(rules.not_due)


def is_due(head: rules.Day, i: rules.Instruction) -> bool:
    """Whether an instruction is due on the day, by its calendar and its trusted lists. Without its accounts it is
    refused for another reason than its due day, as soon as its first working day has come."""
    due = due_on(head, i)
    return due is not None and due <= head.date


def due_on(head: rules.Day, i: rules.Instruction) -> datetime.date | None:
    """The due day that the check of the day works with."""
    asked = rules.Asked(head, i)
    return head.due(i.proposed, 0) if rules.unknown_account(asked) else asked.due()


def due_day_after(head: rules.Day, i: rules.Instruction) -> datetime.date | None:
    """The first working day behind the day on which an instruction is due; None if the calendar does not tell. The
    rules are asked of one day after another: they alone know the lags, and on which day an entry of a trusted list
    takes effect."""
    begin = bisect.bisect_left(head.working_days, max(i.proposed, head.date + ONE_DAY))
    later = (dataclasses.replace(head, date=date) for date in itertools.islice(head.working_days, begin, None))
    return next((on_day.date for on_day in later if is_due(on_day, i)), None)


def head_after(day: DayText, report: Report) -> rules.Day:
    """The rules of a day with the accounts of its report: by them `./day next` sees what waits."""
    return dataclasses.replace(day.head, accounts=Accounts(report.book))


# Whether what a day refused as NotDue comes on its due day, with the same fields.


@dataclasses.dataclass
class Refused:
    """A log row that was refused as NotDue, and the report in which it stands."""

    logged: LogRow
    path: str | Path


class Waits:
    """What the days so far refused as NotDue, and no later day has taken up."""

    def __init__(self) -> None:
        self.waiting: list[Refused] = []

    def look_at(self, day: DayText, found: Findings) -> None:
        """Takes off what a day takes up, and tells what is due on it and is not there: once."""
        rows = Counter(i.row for i in day.instructions)
        left, head = [], day.day()
        for waits in self.waiting:
            asked, before = waits.logged.instruction, f"{waits.path}:{waits.logged.line}"
            if rows[asked.row]:
                rows[asked.row] -= 1
            elif is_due(head, asked):
                due = due_on(head, asked)
                expected = f"{shown(asked.row)}, which {before} refused as {NOT_DUE}, and which is due on {due}"
                found.add(FileFault(day.path, day.source.line(day.first_do), "do", "no such row", expected))
            else:
                left.append(waits)
        self.waiting = left

    def add(self, report: Report) -> None:
        """Takes up what the report of a day refused as NotDue."""
        self.waiting += [Refused(logged, report.path) for logged in report.log if logged.name == NOT_DUE]

    def in_words(self) -> list[str]:
        """A line on what waits at the end, if something does."""
        if not self.waiting:
            return []
        first = self.waiting[0]
        return [f"waiting for their due day: {len(self.waiting)}, such as {first.path}:{first.logged.line}"]
