"""What accounts were over time, and days with some accounts alone, as far as a holder is told of them: by the tables of
the days. No book is unpacked for them, but that of the first text."""
import bisect
import datetime
from collections import defaultdict
from collections.abc import Iterable, Sequence

from registry_tools.questions.days import Days
from registry_tools.questions.records import NAMING, SPAN, hand_changes, logged
from registry_tools.second import rules
from registry_tools.store.past import PastDay
from registry_tools.texts.accounts import Block
from registry_tools.texts.day_text import DayText
from registry_tools.texts.report import LogRow, Report
from registry_tools.texts.rows import Rows

# Where the `account` row says what the account holds.
HELD = slice(8, 10)


class AccountOverTime:
    """What an account was after each day on which something of it changed: its `account` row, and its users, whom no
    act changes."""

    def __init__(self, days: Days, number: int) -> None:
        self.number, database = number, days.database
        found = database.execute("SELECT * FROM accounts_by_day WHERE account = ? ORDER BY date", (number,)).fetchall()
        self.dates = [row[1] for row in found]
        self.states = [row[2:] for row in found]
        self.users: dict[str, list[str]] = defaultdict(list)
        asked = "SELECT date, user, right FROM users WHERE account = ? ORDER BY date, user"
        for date, user, right in database.execute(asked, (number,)):
            self.users[date].append(f"user,{user},{right}")
        # What it held where people changed its row, or made it.
        by_hand = hand_changes(database, "account = ? AND sign = '+' AND text LIKE 'account,%'", number)
        self.by_hand = {date: [*map(int, change.row.split(",")[HELD])] for date, change in by_hand}

    def place(self, date: str) -> int:
        """The place of its state after a day; below 0, if there was no such account."""
        return bisect.bisect_right(self.dates, date) - 1

    def held_before(self, date: str) -> list[int]:
        """What it holds before a day: as much as after the day before, or as its row that people changed says; a new
        one holds nothing."""
        earlier = bisect.bisect_left(self.dates, date) - 1
        behind = [*self.states[earlier][-2:]] if earlier >= 0 else [0, 0]
        return self.by_hand.get(date, behind)

    def after(self, date: str) -> list[str]:
        """Its rows after a day; none, if there was no such account."""
        place = self.place(date)
        return self.rows(place, self.states[place][-2:]) if place >= 0 else []

    def before(self, date: str) -> list[str]:
        """Its rows as the text of a day has them. What people changed before the day stands in the state after it, and
        what it holds is changed by acts alone."""
        place = self.place(date)
        return self.rows(place, self.held_before(date)) if place >= 0 else []

    def users_on(self, date: str) -> set[str]:
        """Its representatives on a day, as they are spelled: no instruction changes them."""
        place = self.place(date)
        return {row.split(",")[1] for row in self.users[self.dates[place]]} if place >= 0 else set()

    def rows(self, place: int, held: Iterable[int]) -> list[str]:
        """The rows of the account at a place of its history."""
        kind, holder, status, outside, waiver, correction, *_ = self.states[place]
        switches = (rules.yes_or_no(bool(switch)) for switch in (outside, waiver))
        fields = ["account", self.number, kind, holder, status, *switches, correction, *held]
        return [",".join(map(str, fields)), *self.users[self.dates[place]]]


def excerpts(days: Days, dates: Sequence[datetime.date], numbers: list[int]) -> list[PastDay]:
    """These days with these accounts, and with the log rows that name them."""
    if not dates:
        return []
    log = log_of(days, dates, numbers)
    asked = {*numbers, *(row.instruction.first for rows in log.values() for row in rows)}
    accounts = {number: AccountOverTime(days, number) for number in sorted(asked)}
    made = [excerpt(date, log[date], accounts) for date in dates]
    if dates[0] == days.dates[0]:
        # (no day before it says what the accounts held)
        first = {number: days.first_text.get(number, []) for number in sorted(asked)}
        made[0].day.source, made[0].day.book = books_of(str(dates[0]), first)
    return made


def log_of(days: Days, dates: Sequence[datetime.date], numbers: list[int]) -> dict[datetime.date, list[LogRow]]:
    """The log rows that name one of the accounts, by their days."""
    found: dict[int, LogRow] = {}
    for number in numbers:
        values = {"account": number, "begin": str(dates[0]), "end": str(dates[-1])}
        found.update((row.record, row) for row in logged(days, [NAMING, *SPAN], values))
    by_day: dict[datetime.date, list[LogRow]] = defaultdict(list)
    for _, row in sorted(found.items()):
        by_day[row.date].append(row)
    return by_day


def excerpt(date: datetime.date, log: list[LogRow], accounts: dict[int, AccountOverTime]) -> PastDay:
    """A day with only some accounts, as far as their statements need it."""
    before, book = books_of(str(date), {number: account.before(str(date)) for number, account in accounts.items()})
    head = rules.Day(date, log[0].record if log else 1)
    day = DayText(before, 2, head, book, [row.instruction for row in log], 0, len(before))
    after, own_book = books_of(str(date), {number: account.after(str(date)) for number, account in accounts.items()})
    report = Report(after, log, log[-1].record + 1 if log else 1, own_book, {}, 0, len(after))
    return PastDay(day, report, None, [])


def books_of(name: str, blocks: dict[int, list[str]]) -> tuple[Rows, dict[int, Block]]:
    """Accounts by their rows, those that there are."""
    source, book = Rows(name, [], ()), {}
    for number, rows in blocks.items():
        if rows:
            book[number] = Block(number, source, len(source), len(rows))
            source.rows += rows
    return source, book
