"""Log rows over all days: of an account, of a holder, of a user, of an act, what was refused, between two days."""
import datetime
from collections.abc import Iterator, Set
from dataclasses import dataclass

from registry_tools.calendars.due_days import NOT_DUE
from registry_tools.questions.days import Days
from registry_tools.questions.records import HOLDER_HAS, NAMING, SPAN, count_logged, logged
from registry_tools.showing import Cell
from registry_tools.texts.in_words import act_columns
from registry_tools.texts.report import LogRow

OF_USER = "(i.proposer = :user OR i.approver = :user)"


@dataclass(frozen=True)
class Find:
    """Which log rows are looked for: those for which all holds that is said."""

    account: int | None = None
    # All accounts that this holder has had.
    holder: int | None = None
    user: int | None = None
    act: str | None = None
    is_refused: bool = False
    # Without what only waited for its due day.
    has_no_waiting: bool = False
    begin: datetime.date = datetime.date.min
    end: datetime.date = datetime.date.max


def find(days: Days, asked: Find, places: range | None = None) -> list[LogRow]:
    """The log rows that are looked for, by rising record, or those of them at these places. Raises FileFault if a
    report can't be read that has one."""
    return [*logged(days, *asked_in_sql(asked), places)]


def count_found(days: Days, asked: Find) -> int:
    """How many log rows are looked for."""
    return count_logged(days, *asked_in_sql(asked))


def asked_in_sql(asked: Find) -> tuple[list[str], dict[str, object]]:
    """The conditions of what is looked for, and their values."""
    where = {
        NAMING: asked.account is not None, HOLDER_HAS: asked.holder is not None, OF_USER: asked.user is not None,
        "i.act = :act": asked.act is not None, "NOT log.is_done": asked.is_refused,
        "log.name IS NOT :waiting": asked.has_no_waiting,
        SPAN[0]: asked.begin != datetime.date.min, SPAN[1]: asked.end != datetime.date.max,
    }  # fmt: skip
    values: dict[str, object] = {
        "account": asked.account, "holder": asked.holder, "user": asked.user, "act": asked.act, "waiting": NOT_DUE,
        "begin": str(asked.begin), "end": str(asked.end),
    }  # fmt: skip
    return [condition for condition, is_asked in where.items() if is_asked], values


def accounts_meant(days: Days, asked: Find) -> set[int]:
    """The accounts whose shares of a distribution are shown; none, if all are."""
    if asked.holder is None:
        return set() if asked.account is None else {asked.account}
    had = "SELECT DISTINCT account FROM accounts_by_day WHERE holder = ?"
    return {number for (number,) in days.database.execute(had, (asked.holder,))}


def cells_of(logged_row: LogRow, accounts: Set[int]) -> Iterator[list[Cell]]:
    """The row of an instruction, or one for each account that receives, as far as it names one of these accounts, if
    there are some."""
    i = logged_row.instruction
    outcome = "done" if logged_row.is_done else logged_row.name
    start: list[Cell] = [str(logged_row.date), logged_row.record, str(i.proposed), i.proposer, i.approver, i.act]
    for line in act_columns(i):
        if not i.shares or not accounts or accounts & {i.first, line.to}:
            named = (line.first, line.to, line.kind, line.amount, line.year, outcome, line.status)
            yield [*start, *(None if cell == "" else cell for cell in named)]
