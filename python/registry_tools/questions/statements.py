"""The statements of accounts over a day, in one pass; and what of them can be sent to a holder. `./day statements
--help` tells their rows."""
import datetime
from pathlib import Path

from registry_tools.errors import WordsFault
from registry_tools.output import new_folder
from registry_tools.progress import progress
from registry_tools.texts.accounts import Block
from registry_tools.texts.day_text import DayText
from registry_tools.texts.own import own_log, own_row, users_of
from registry_tools.texts.report import LogRow, Report


def log_by_account(report: Report) -> dict[int, list[LogRow]]:
    """The log rows of each account that an instruction touched."""
    log: dict[int, list[LogRow]] = {}
    for logged in report.log:
        for number in logged.touched():
            log.setdefault(number, []).append(logged)
    return log


def edge(tag: str, block: Block) -> str:
    """The row `opening` or `closing` of an account."""
    return f"{tag},{block.number},{','.join(block.held_fields)}"


def own_start(date: datetime.date, block: Block) -> str:
    """The first row of the own statement of an account, as it is after a day."""
    _, _, kind, holder, status, *_ = block.rows[0].split(",")
    return f"statement,{date},{block.number},{kind},{holder},{status}"


def rows_by_account(day: DayText, report: Report, is_own: bool) -> dict[int, list[str]]:
    """The log rows of the statements, by account."""
    if not is_own:
        return {number: [logged.row for logged in rows] for number, rows in log_by_account(report).items()}
    users = {number: users_of(block) for number, block in day.book.items()}
    log = own_log(day, report)
    return {number: [own_row(row, number, users[number]) for row in rows] for number, rows in log.items()}


def statement_of(day: DayText, report: Report, number: int, rows: list[str], is_own: bool) -> str:
    """The text of the statement of an account."""
    before, after = day.book[number], report.book[number]
    start = [own_start(day.head.date, after)] if is_own else []
    return "\n".join([*start, edge("opening", before), *rows, edge("closing", after), "end", ""])


def statement_over(days: list[tuple[DayText, Report]], number: int, rows: list[str]) -> str:
    """The own statement of an account over several days, as if they were one: its opening is that of the first day on
    which it is there."""
    first = next(day for day, _ in days if number in day.book)
    day, report = days[-1]
    start, after = own_start(day.head.date, report.book[number]), report.book[number]
    return "\n".join([start, edge("opening", first.book[number]), *rows, edge("closing", after), "end", ""])


def make(day: DayText, report: Report, folder: str | Path, accounts: list[int] | None, is_own: bool) -> None:
    """Writes the statements of these accounts, or of all, into a folder that is not there yet. Raises WordsFault if
    there is no such account."""
    numbers = [*dict.fromkeys(accounts or day.book)]
    for number in numbers:
        if number not in day.book:
            raise WordsFault(f"there is no account {number} in {day.path}")
    rows = rows_by_account(day, report, is_own)
    with new_folder(folder) as made:
        for number in progress.over(numbers, "writing the statements", len(numbers)):
            made.write(f"{number}.csv", statement_of(day, report, number, rows.get(number, []), is_own))
