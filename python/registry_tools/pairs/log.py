"""The logs of reports as one table: a row for each instruction, and for a distribution a row for each account that
receives. `./day log --help` tells the columns."""
import datetime
from dataclasses import dataclass
from typing import Any, Iterator, NamedTuple

from registry_tools import tables
from registry_tools.calendars.due_days import NOT_DUE, due_day_after, head_after
from registry_tools.errors import WordsFault
from registry_tools.progress import progress
from registry_tools.second import rules
from registry_tools.showing import Cell
from registry_tools.texts.accounts import Accounts
from registry_tools.texts.checks import advice_for
from registry_tools.texts.day_text import DayText
from registry_tools.texts.in_words import act_columns
from registry_tools.texts.follows import must_follow
from registry_tools.texts.report import Report

COLUMNS = tables.COLUMNS["log"]


@dataclass(frozen=True)
class Log:
    """Which rows are wanted: those of an account, or all; and only those that were refused, or all."""

    account: int | None = None
    is_refused: bool = False


class Known(NamedTuple):
    """What the text of a day tells of its records: the due day of each, and what was found where one is refused."""

    due: dict[int, datetime.date | None]
    found: dict[int, str]


# The cells of a row, in the order of the columns.
LogCells = tuple[Any, ...]


def entry_in_effect(accounts: Accounts, i: rules.Instruction) -> datetime.date | str:
    """The day from which an added entry of a trusted list is in effect, if it was not taken off again."""
    account = accounts.get(i.first)
    return account.trusted.get(rules.known(i.other), "") if account else ""


def log_rows(report: Report, told: Known) -> Iterator[LogCells]:
    """The rows of a report, with what is known of its records."""
    accounts = Accounts(report.book)
    for logged in report.log:
        i = logged.instruction
        if logged.is_done:
            outcome: LogCells = ("done", "", "", "" if logged.figure is None else logged.figure)
        else:
            outcome = ("refused", logged.code, logged.name, "")
        is_entry = i.act == "trust" and logged.is_done
        due = entry_in_effect(accounts, i) if is_entry else told.due.get(logged.record) or ""
        found = told.found.get(logged.record, "")
        advice = "" if logged.is_done else f"{found} {advice_for(logged.name)}".lstrip()
        start = (logged.record, logged.date, *i.fields[:4])
        for line in act_columns(i):
            named = (line.first, line.to, line.kind, line.amount, line.year)
            yield (*start, *named, *outcome, due, advice, line.status, line.record_named)


def known_of(report: Report, days: list[DayText]) -> Known:
    """What is known of each record of a report, if its day text is among these: its due day, and what was found where
    it is refused. What waits has the day on which ./day next enters it."""
    day = next((each for each in days if each.head.date == report_date(report)), None)
    if day is None:
        return Known({}, {})
    must_follow(day, report)
    log = [*progress.over(rules.settle(day.day(), tells=True), "working out due days", len(day.instructions))]
    due = {record: logged.due for record, logged in enumerate(log, day.head.next_record)}
    passing = ((record, logged.passing) for record, logged in enumerate(log, day.head.next_record))
    found = {record: why.found for record, why in passing if why}
    head = head_after(day, report)
    waiting = (logged for logged in report.log if logged.name == NOT_DUE)
    return Known(due | {logged.record: due_day_after(head, logged.instruction) for logged in waiting}, found)


def report_date(report: Report) -> datetime.date | None:
    """The day of a report; None, if its log is empty."""
    return report.log[0].date if report.log else None


def is_wanted(row: LogCells, asked: Log) -> bool:
    """Whether a row is wanted."""
    of = dict(zip(COLUMNS.names, row))
    is_of_account = asked.account is None or asked.account in (of["from"], of["to"])
    return is_of_account and (not asked.is_refused or of["outcome"] == "refused")


def look_for_account(reports: list[Report], number: int | None) -> None:
    """Ends the command if there is no such account, and no instruction names it: an empty table would say that nothing
    happened."""
    instructions = (logged.instruction for report in reports for logged in report.log)
    is_named = (number in (*rules.named(i), i.other) for i in instructions)
    if number is not None and not any(number in report.book for report in reports) and not any(is_named):
        raise WordsFault(f"--account {number}: no report has such an account, and no instruction names it")


def look_at_order(reports: list[Report]) -> None:
    """Ends the command if a report is named twice, or stands before an earlier one."""
    for place, (report, later) in enumerate(zip(reports, reports[1:])):
        # (two days without instructions may have the same report)
        same = (each for each in reports[: place + 1] if later.log and each.source.rows == later.source.rows)
        again = next(same, None)
        if again:
            raise WordsFault(f"{later.path} is {again.path} again: its rows would stand twice")
        first = later.next_record - len(later.log)
        if first < report.next_record:
            earlier = f"its records from {first} on come before {report.next_record}, the next one of {report.path}"
            raise WordsFault(f"{later.path} is an earlier report, or one of the same day: {earlier}")


def log(reports: list[Report], days: list[DayText], asked: Log = Log()) -> list[list[Cell]]:
    """The rows of reports as one table. Raises WordsFault if they do not stand in order, if no report is that of one of
    the days, or if nothing has the account."""
    look_at_order(reports)
    for day in days:
        if day.instructions and day.head.date not in map(report_date, reports):
            raise WordsFault(f"no report is of {day.head.date}, the day of {day.path}")
    rows = [row for report in reports for row in log_rows(report, known_of(report, days)) if is_wanted(row, asked)]
    look_for_account(reports, asked.account)
    return [*map(cells_of, rows)]


def cells_of(row: LogCells) -> list[Cell]:
    """The cells of a row: numbers, texts, or nothing."""
    named = zip(COLUMNS.names, row)
    return [None if cell == "" else int(cell) if name in COLUMNS.numbers else str(cell) for name, cell in named]
