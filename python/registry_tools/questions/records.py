"""What the tables of days answer: log rows as a report has them, what an account held, and changes by hand."""
import datetime
import sqlite3
from collections.abc import Iterator, Mapping, Sequence
from typing import Any

from registry_tools.questions.days import Days
from registry_tools.second import faults, rules
from registry_tools.store.daybook import MOST_STORED
from registry_tools.tables import ACTS, DISTRIBUTE, RETIRED_AS
from registry_tools.texts.accounts import Reader
from registry_tools.texts.books import Sums
from registry_tools.texts.changes import HandChange
from registry_tools.texts.report import CHECK_NAMES, LogRow, log_row
from registry_tools.texts.rows import rows_of

FIELDS = {act.word: act.fields.split() for act in ACTS}
LOGGED = (
    "SELECT i.record, i.date, i.proposed, i.proposer, i.approver, i.act, i.account, i.other, i.kind, i.amount,"
    " i.reversed_record, i.status, i.year, i.tonnes, log.is_done, log.code, log.figure"
)
FROM_LOG = " FROM instructions AS i JOIN log ON log.record = i.record"
SHARES = "SELECT receiver, amount FROM shares WHERE record = ? ORDER BY place"
HELD = "SELECT account, general, aviation FROM held WHERE record = ?"
# The records that name an account: as the first one, as the other one, or as one that receives.
NAMING = (
    "i.record IN (SELECT record FROM instructions WHERE account = :account"
    " UNION SELECT record FROM instructions WHERE other = :account"
    " UNION SELECT record FROM shares WHERE receiver = :account)"
)
# Those that name an account that a holder has had.
HOLDER_HAS = NAMING.replace("= :account", "IN (SELECT account FROM accounts_by_day WHERE holder = :holder)")
SPAN = ("i.date >= :begin", "i.date <= :end")


def logged(
    days: Days, where: Sequence[str], values: Mapping[str, object], places: range | None = None
) -> Iterator[LogRow]:
    """The log rows for which all conditions hold, by rising record, with what the accounts then held; or those of them
    at these places alone, counted from 0."""
    part = "" if places is None else f" LIMIT {len(places)} OFFSET {places.start}"
    asked = f"{LOGGED}{FROM_LOG} WHERE {' AND '.join(where) or '1'} ORDER BY i.record{part}"
    for row in days.database.execute(asked, values).fetchall():
        found = log_row_of(days, row)
        for number, *held in days.database.execute(HELD, row[:1]):
            found.held[number] = dict(zip(rules.KINDS, held))
        yield found


def count_logged(days: Days, where: Sequence[str], values: Mapping[str, object]) -> int:
    """How many log rows there are for which all conditions hold."""
    asked = f"SELECT count(*){FROM_LOG} WHERE {' AND '.join(where) or '1'}"
    return int(days.database.execute(asked, values).fetchone()[0])


def log_row_of(days: Days, row: tuple[Any, ...]) -> LogRow:
    """The log row of a row of the tables."""
    record, date, proposed, proposer, approver, act, first, other, kind, amount = row[:10]
    number, status, year, tonnes, is_done, code, figure = row[10:]
    shares = days.database.execute(SHARES, (record,)).fetchall()
    if MOST_STORED in (amount, tonnes, *(part for _, part in shares)):
        return as_reported(days, datetime.date.fromisoformat(date), record)
    values = {
        "FROM": first, "ACCOUNT": first, "TO": shares[0][0] if shares else first, "OTHER": other, "KIND": kind,
        "AMOUNT": amount, "NUMBER": number, "STATUS": status, "YEAR": year, "TONNES": tonnes,
    }  # fmt: skip
    own_fields = [values[name] for name in FIELDS[act]]
    if act == DISTRIBUTE:
        own_fields[2:] = [field for share in shares for field in share]
    fields = [proposed, proposer, "" if approver is None else approver, act, *own_fields]
    instruction = rules.read_instruction([*map(str, fields)])
    name = CHECK_NAMES[code - 1] if code else ""
    when, outcome = datetime.date.fromisoformat(date), (bool(is_done), figure, code or 0, name)
    return LogRow("", 0, record, when, instruction, *outcome)


def as_reported(days: Days, date: datetime.date, record: int) -> LogRow:
    """A log row of the report itself: a number of it may be larger than a column can hold."""
    source = rows_of(days.pairs[date].report)
    place = next(place for place, row in enumerate(source.rows) if row.startswith(f"log,{record},"))
    return log_row(Reader(source, faults.Reading(last="work", version=2)), place)


def sums_after(database: sqlite3.Connection, account: int, date: datetime.date) -> dict[str, Sums] | None:
    """What an account held, had surrendered and had deleted after a day, by kind; None, if there was none."""
    last = "WHERE account = ? AND date <= ? ORDER BY date DESC LIMIT 1"
    asked = f"SELECT date, general, aviation FROM accounts_by_day {last}"
    state = database.execute(asked, (account, str(date))).fetchone()
    if state is None:
        return None
    since, *held = state
    gone = (
        "SELECT what, kind, sum(amount) FROM surrenders WHERE account = ? AND date = ? AND NOT is_reversed"
        " GROUP BY what, kind"
    )
    sums = {(what, kind): amount for what, kind, amount in database.execute(gone, (account, since))}
    kinds = zip(rules.KINDS, held)
    return {kind: Sums(amount, *(sums.get((what, kind), 0) for what in RETIRED_AS)) for kind, amount in kinds}


def hand_changes(database: sqlite3.Connection, where: str, *values: object) -> Iterator[tuple[str, HandChange]]:
    """What people changed, each with its day."""
    asked = f"SELECT date, account, sign, text FROM hand_changes WHERE {where} ORDER BY date, place"
    for date, account, sign, text in database.execute(asked, values):
        yield date, HandChange(account, sign, text)
