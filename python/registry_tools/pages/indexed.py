"""The days of a statement of one account, by the tables of the days: no book is unpacked for them."""
import datetime
from collections.abc import Mapping, Sequence
from dataclasses import dataclass

from registry_tools.questions.accounts import HELD, AccountOverTime
from registry_tools.questions.days import Days
from registry_tools.questions.records import NAMING, logged
from registry_tools.second import rules
from registry_tools.texts.own import OwnRow, own_row_of


@dataclass
class IndexedDay:
    """A day of the statement of one account."""

    date: datetime.date
    rows: Mapping[int, Sequence[OwnRow]]
    # What it held before the day, if it was there, and who represents it.
    held: dict[str, int] | None
    representatives: set[str]

    def opening(self, _number: int) -> dict[str, int] | None:
        """What the account held before the day; None if it was not there."""
        return self.held

    def users(self, _number: int) -> set[str]:
        """The representatives of the account on the day: no instruction changes them."""
        return self.representatives


def days_of(days: Days, number: int, most: int) -> list[IndexedDay]:
    """The last days, at most so many, as DayOfAccounts tells them of this account."""
    dates = days.dates[-most:]
    accounts = {number: AccountOverTime(days, number)}

    def users_on(other: int, date: datetime.date) -> set[str]:
        if other not in accounts:
            accounts[other] = AccountOverTime(days, other)
        return accounts[other].users_on(str(date))

    log: dict[datetime.date, list[OwnRow]] = {date: [] for date in dates}
    for row in logged(days, [NAMING, "i.date >= :begin"], {"account": number, "begin": str(dates[0])}):
        is_named = number in rules.named(row.instruction)
        of_account = own_row_of(row, number, lambda other: users_on(other, row.date)) if is_named else None
        log[row.date] += [of_account] if of_account else []
    held = {date: held_before(days, accounts[number], date) for date in dates}
    return [
        IndexedDay(date, {number: rows if held[date] else []}, held[date], users_on(number, date))
        for date, rows in log.items()
    ]


def held_before(days: Days, account: AccountOverTime, date: datetime.date) -> dict[str, int] | None:
    """What an account held before a day; None, if it was not there."""
    if date == days.dates[0]:
        rows = days.first_rows(account.number)
        return dict(zip(rules.KINDS, map(int, rows[0].split(",")[HELD]))) if rows else None
    return dict(zip(rules.KINDS, account.held_before(str(date)))) if account.place(str(date)) >= 0 else None
