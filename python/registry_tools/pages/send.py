"""A package for each holder, to print or to send: one HTML file with all accounts of the holder, and the statement of
each as csv. What others own, decide or tried is in none of them, and no page leads to another one."""
import datetime
from collections.abc import Callable
from dataclasses import dataclass

from registry_tools import voice
from registry_tools.calendars.deadlines import DueDates
from registry_tools.errors import WordsFault
from registry_tools.texts.namebook import Labels
from registry_tools.output import new_folder
from registry_tools.pages.html import Frame
from registry_tools.texts.sender import Sender
from registry_tools.pages.letter import LetterWords, letter
from registry_tools.pages.mail import addresses_of, message, must_be_of
from registry_tools.pages.settled import Settled
from registry_tools.pages.statement import DayOfAccounts
from registry_tools.pages.tasks import tasks_of
from registry_tools.progress import progress
from registry_tools.questions.accounts import excerpts
from registry_tools.questions.days import Days
from registry_tools.questions.statements import rows_by_account, statement_over
from registry_tools.second import rules
from registry_tools.store.past import PastDay
from registry_tools.texts import pending
from registry_tools.texts.report import Report
from registry_tools.texts.rows import sum_of


@dataclass(frozen=True)
class Send:
    """Which packages are made: of the days from the first to the last one, for these holders, or for all. `pending` is
    the pending file behind the last of them, if there is one."""

    begin: datetime.date
    end: datetime.date
    holders: tuple[int, ...] | None = None
    pending: str | None = None
    # Whom the letters come from, and by when holders have to do something.
    sender: Sender = Sender()
    due: DueDates = DueDates()
    # Whether messages are made, too, and the file with the addresses of holders.
    as_messages: bool = False
    mails: str | None = None


@dataclass(frozen=True)
class Sent:
    """How many holders have a package, and how many accounts are in them."""

    holders: int
    accounts: int


def span_of(days: list[datetime.date], begin: datetime.date | None, end: datetime.date | None) -> list[datetime.date]:
    """The first and the last day of the statements, among those that there are: without one that is named the last one
    that there is, and without a first one this one alone. Raises WordsFault if there is no such day."""
    if not days:
        raise WordsFault("there is no settled day")
    last = end or days[-1]
    first = begin or last
    if first > last:
        raise WordsFault(f"{voice.option('from', first)} is later than {last}, the last day of the statements")
    dates = [date for date in days if first <= date <= last]
    if last not in days or not dates:
        why = f"there are days from {days[0]} to {days[-1]}, and not this one"
        raise WordsFault(f"{voice.option('day', last)}: {why}")
    return [dates[0], last]


class DayTold:
    """A day of the statements: its log rows by account, as pages tell them and as statements have them."""

    def __init__(self, past_day: PastDay) -> None:
        self.day, self.report = past_day.day, past_day.report
        self.told = DayOfAccounts(self.day, self.report)
        self.rows = rows_by_account(self.day, self.report, is_own=True)


def accounts_of(report: Report, wanted: tuple[int, ...] | None) -> dict[int, list[int]]:
    """The accounts of each holder."""
    holders: dict[int, list[int]] = {}
    for number, block in report.book.items():
        if block.kind in rules.HOLDERS:
            holders.setdefault(block.holder, []).append(number)
    for holder in wanted or ():
        if holder not in holders:
            nobody = "no operator, aircraft or trading account has this holder"
            raise WordsFault(f"{voice.option('holder', holder)}: {nobody}")
    return {holder: holders[holder] for holder in wanted or holders}


def waiting_of(path: str | None, last: PastDay) -> list[pending.Waiting]:
    """What waits since earlier days behind the last day of the statements."""
    return pending.waiting_before(pending.read_pending(path), last.day, last.report) if path else []


def places_by_number(days: list[DayTold], numbers: list[int]) -> dict[int, int]:
    """For each account the place of the first day, counted from 0, from which on nobody but its holder of the last day
    had it: what came before is of another holder."""
    places = dict.fromkeys(numbers, 0)
    last = days[-1].report.book
    for place, day in enumerate(days[:-1], 1):
        book = day.report.book
        for number in numbers:
            if number in book and book[number].holder != last[number].holder:
                places[number] = place
    return places


def send(days: Days, names: Labels, asked: Send, folder: str, keep: Callable[[], None]) -> Sent:
    """Makes the packages in a folder that is not there yet. The pair of the last day is read, and of earlier days what
    the tables have of the accounts of a holder. `keep` is done when all are there, and before they get their names."""
    dates = days.between(asked.begin, asked.end)
    past_day = days.day(dates[-1])
    last, waiting = DayTold(past_day), waiting_of(asked.pending, past_day)
    settled = Settled(last.day, last.report, LetterWords(), Frame([]), (), waiting, names)
    holders, tasks = accounts_of(last.report, asked.holders), tasks_of(asked.due, last.day, last.report)
    mails = addresses_of(asked.mails) if asked.mails is not None else {}
    must_be_of(asked.mails or "", accounts_of(last.report, None), mails)
    span = " to ".join(dict.fromkeys((str(dates[0]), str(dates[-1]))))
    with new_folder(folder) as made:
        for holder, numbers in progress.over(holders.items(), "writing the packages", len(holders), step=1):
            told = [*map(DayTold, excerpts(days, dates[:-1], numbers)), last]
            places = places_by_number(told, numbers)
            texts = {number: statement_from(told[place:], number) for number, place in places.items()}
            tables = {number: (f"{holder}-{number}.csv", sum_of(text.encode())) for number, text in texts.items()}
            each_day = [day.told for day in told]
            of_holder = letter(settled, each_day, holder, places, days.head, tables, asked.sender, tasks)
            files = {f"{holder}.html": of_holder.page, **{tables[number][0]: text for number, text in texts.items()}}
            for name, text in files.items():
                made.write(name, text)
            if asked.as_messages:
                words = of_holder.title, of_holder.lead, of_holder.tasks
                to = mails.get(holder, [])
                made.write_bytes(f"{holder}.eml", message(holder, span, asked.sender, to, words, files))
        made.have_all_there()
        keep()
    return Sent(len(holders), sum(map(len, holders.values())))


def statement_from(days: list[DayTold], number: int) -> str:
    """The statement of an account over these days."""
    rows = [row for day in days for row in day.rows.get(number, [])]
    return statement_over([(day.day, day.report) for day in days], number, rows)
