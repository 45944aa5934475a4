"""The daybook: the tables in which a settled day has its rows, for questions in SQL. Those of a folder are in its file,
those of paths in memory, and `./day db` makes a file of them; all are filled by this module.

The row of an account goes into its table as it is split: SQLite makes numbers of its fields, since the tables are
strict."""
import datetime
import sqlite3
from collections.abc import Iterable, Iterator, Sequence
from pathlib import Path

from registry_tools.store.past import PastDay
from registry_tools.texts.books import sums_told
from registry_tools.texts.report import LogRow

Row = Sequence[object]
# A column has 63 bits, and an amount that is refused may have 64: the largest number stands for all above it.
MOST_STORED = 2**63 - 1
# How the row of an account after a day is put into its table: its fields are ?2 and so on, behind its tag.
ACCOUNT = "accounts_by_day VALUES (?2, '{date}', ?3, ?4, ?5, ?6 = 'yes', ?7 = 'yes', ?8, ?9, ?10)"
# How the rows of its lists are, by their tags: ?1 is the number of the account, ?2 the tag, and ?3 the first field.
LISTS = {
    "correction": "corrections VALUES (?1, '{date}', ?3, ?4)",
    "user": "users VALUES (?1, '{date}', ?3, ?4)",
    "trusted": "trusted VALUES (?1, '{date}', ?3, ?4)",
    "retired": (
        "surrenders VALUES (?1, '{date}', ?3, ?4, ?5, ?6, ?7, ?8 = 'yes',"
        " CASE ?4 WHEN 'surrender' THEN coalesce(?9, 1) END)"
    ),
    "emissions": "emissions VALUES (?1, '{date}', ?3, ?4)",
    "figure": "figures VALUES (?1, '{date}', ?3, ?4)",
}
FIELDS_OF_RETIRED = 9
# The tables whose rows have a record, and those whose rows have a date, in the order in which they are filled.
BY_RECORD = ("instructions", "shares", "log", "held")
OF_LISTS = ("corrections", "users", "trusted", "surrenders", "emissions", "figures")
BY_DATE = ("days", "totals", "accounts_by_day", *OF_LISTS, "hand_changes")
OF_DAY = "record IN (SELECT record FROM {place}instructions WHERE date = :date)"


def schema() -> str:
    """The statements that make all tables."""
    return Path(__file__).with_name("daybook.sql").read_text(encoding="utf-8")


def statements(script: str) -> Iterator[str]:
    """The statements of a script, one by one: so they can be part of a transaction."""
    statement = ""
    for part in script.split(";"):
        statement += f"{part};"
        if part.strip() and sqlite3.complete_statement(statement):
            yield statement
            statement = ""


def in_memory() -> sqlite3.Connection:
    """A daybook without a day, which goes when it is closed."""
    database = sqlite3.connect(":memory:", isolation_level=None)
    for statement in statements(schema()):
        database.execute(statement)
    return database


def add_day(database: sqlite3.Connection, past_day: PastDay, sums: tuple[str, str], place: str = "") -> None:
    """Puts a day into all tables. `sums` are those of its text and of its report; `place` names the database, as
    `again.`, if it is an attached one."""
    day, report = past_day.day, past_day.report
    date, head, log = str(past_day.date), day.head, report.log
    counts = len(day.book), len(day.instructions)
    rows: dict[str, Iterable[Row]] = {
        "days": [(date, head.next_record, report.next_record, head.current, *counts, *sums)],
        "instructions": map(instruction_of, log),
        "shares": (row for logged in log for row in shares_of(logged)),
        "log": map(log_of, log),
        "held": (row for logged in log if logged.is_done for row in held_of(logged)),
        "totals": [(date, kind, *table_rows) for kind, table_rows in sums_told(report).items()],
    }
    for table, table_rows in rows.items():
        insert(database, f"{place}{table}", table_rows)
    add_accounts(database, past_day, place)
    insert(database, f"{place}hand_changes", changes_by_hand(past_day))


def add_accounts(database: sqlite3.Connection, past_day: PastDay, place: str) -> None:
    """Puts the accounts that a day left otherwise, with their lists."""
    accounts: list[Row] = []
    lists: dict[str, list[Row]] = {tag: [] for tag in LISTS}
    for number in past_day.changed:
        account, *others = past_day.report.book[number].rows
        accounts.append(account.split(","))
        for row in others:
            fields = row.split(",")
            lists[fields[0]].append([number, *fields])
    # (a surrender of the first period may say no period)
    lists["retired"] = [[*each, *[None] * (FIELDS_OF_RETIRED - len(each))] for each in lists["retired"]]
    date = str(past_day.date)
    database.executemany(f"INSERT INTO {place}{ACCOUNT.format(date=date)}", accounts)
    for tag, rows in lists.items():
        database.executemany(f"INSERT INTO {place}{LISTS[tag].format(date=date)}", rows)


def insert(database: sqlite3.Connection, table: str, rows: Iterable[Row]) -> None:
    """Adds rows. All have as many values as the first one."""
    rows = iter(rows)
    first = next(rows, None)
    if first is not None:
        statement = f"INSERT INTO {table} VALUES ({','.join('?' * len(first))})"
        database.execute(statement, first)
        database.executemany(statement, rows)


def remove_day(database: sqlite3.Connection, date: datetime.date) -> None:
    """Takes a day out."""
    of_day = {"date": str(date)}
    for table in reversed(BY_RECORD):
        where = "date = :date" if table == "instructions" else OF_DAY.format(place="")
        database.execute(f"DELETE FROM {table} WHERE {where}", of_day)
    for table in reversed(BY_DATE):
        database.execute(f"DELETE FROM {table} WHERE date = :date", of_day)


def instruction_of(logged: LogRow) -> Row:
    """The row of an instruction."""
    i = logged.instruction
    amount = stored(sum(i.amounts)) if i.amounts else None
    return (
        logged.record, str(logged.date), str(i.proposed), i.proposer, i.approver, i.act, i.first, i.other,
        i.kind, amount, i.number, i.status, i.year, None if i.tonnes is None else stored(i.tonnes),
    )  # fmt: skip


def stored(number: int) -> int:
    """A number as a column can hold it."""
    return min(number, MOST_STORED)


def shares_of(logged: LogRow) -> Iterator[Row]:
    """The rows of what accounts receive by an instruction."""
    for place, (to, amount) in enumerate(logged.instruction.shares, 1):
        yield logged.record, place, to, stored(amount)


def log_of(logged: LogRow) -> Row:
    """The row of what came of an instruction."""
    code = (None, None) if logged.is_done else (logged.code, logged.name)
    return logged.record, int(logged.is_done), *code, logged.figure


def held_of(logged: LogRow) -> Iterator[Row]:
    """The rows of what accounts hold after an instruction."""
    for number, held in logged.held.items():
        yield logged.record, number, held["general"], held["aviation"]


def changes_by_hand(past_day: PastDay) -> Iterator[Row]:
    """What people changed between the report before and the day text. The rules have no account."""
    for place, change in enumerate(past_day.changes(), 1):
        yield str(past_day.date), place, change.account, change.sign, change.row
