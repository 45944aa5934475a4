"""All that became of an account: each instruction that touched it with what it then held, and each change by hand
between two days."""
from collections.abc import Callable, Iterator

from registry_tools.notes import BY_HAND
from registry_tools.questions.accounts import HELD, AccountOverTime
from registry_tools.questions.days import Days
from registry_tools.questions.records import NAMING, hand_changes, logged
from registry_tools.showing import Cell
from registry_tools.texts import in_words
from registry_tools.texts.report import LogRow


def history(days: Days, account: int, name_of: Callable[[object], str] = str) -> list[list[Cell]]:
    """The rows of an account, the changes of each day before its instructions; none, if there is no such account.
    `name_of` tells accounts in words. Raises FileFault if a report can't be read that names it."""
    rows = [*first_row(days, account), *hand_rows(days, account)]
    for log_row in logged(days, [NAMING], {"account": account}):
        rows += cells_of(log_row, account, name_of)
    return sorted(rows, key=lambda row: (str(row[0]), row[1] is not None))


def first_row(days: Days, account: int) -> Iterator[list[Cell]]:
    """The account as the first text has it, if it has it."""
    for row in days.first_rows(account)[:1]:
        yield [str(days.dates[0]), None, f"first text: {row}", BY_HAND, *map(int, row.split(",")[HELD])]


def hand_rows(days: Days, account: int) -> Iterator[list[Cell]]:
    """The changes by hand of an account, with what it then held. It is new on the day before which it was on none."""
    over_time = AccountOverTime(days, account)
    for date, change in hand_changes(days.database, "account = ?", account):
        is_new = date == over_time.dates[0] and change.row.startswith("account,")
        words = f"new account: {change.row}" if is_new else change.words
        yield [date, None, words, BY_HAND, *over_time.held_before(date)]


def cells_of(logged_row: LogRow, number: int, name_of: Callable[[object], str]) -> Iterator[list[Cell]]:
    """The row of an instruction, if it touched the account or was to."""
    i = logged_row.instruction
    if number in logged_row.touched() or i.first == number:
        held = logged_row.held.get(number)
        amounts: list[Cell] = [held["general"], held["aviation"]] if held else [None, None]
        outcome = "done" if logged_row.is_done else logged_row.name
        told = in_words.instruction_in_words(i, name_of)
        yield [str(logged_row.date), logged_row.record, told, outcome, *amounts]
