"""What is due from the last settled day on, and what is overdue, in the order of the dates. `./day due --help` tells
what that is."""
import bisect
import contextlib
import datetime
import functools
from collections import Counter
from typing import Callable, Iterable, Iterator, NamedTuple

from registry_tools import voice
from registry_tools.calendars.deadlines import DueDates
from registry_tools.calendars.due_days import head_after
from registry_tools.calendars.ics import calendar_of
from registry_tools.errors import FileFault
from registry_tools.notes import MOST_TOLD, counted
from registry_tools.office import approvals, composing
from registry_tools.office.office import Office
from registry_tools.texts.namebook import Labels
from registry_tools.pairs.next import about_date
from registry_tools.office.waits import waits_of
from registry_tools.pairs.compliance import AT, NO_EMISSIONS, SETTLED, Stand, Standing, standings, years_over
from registry_tools.second import rules
from registry_tools.showing import Cell
from registry_tools.texts.blocks import Block
from registry_tools.texts.day_text import DayText
from registry_tools.texts.in_words import grouped, instruction_in_words
from registry_tools.texts.report import Report

DEADLINE, OVERDUE, REVERSAL, LIST = "deadline", "overdue", "reversal ends", "list takes effect"
WAITING, MISSED, CALENDAR = "waiting", "working day", "calendar ends"
# What the holder of an account has to do of which so many allowances are missing for a year.
SURRENDER_FOR = "Surrender {} allowances for {}"
# Which field of the row of an entry, or of what is retired, is its date, by the first letter.
DATE_OF = {"t": 2, "r": 5}
# A year has deadlines in the next one: so those of these years, counted back from the last day, may still come.
YEARS_BACK = (1, 0)


class Due(NamedTuple):
    """Something that is due on a day."""

    date: datetime.date
    what: str
    account: int | None
    record: int | None
    text: str
    # Of a deadline, what the holder of the account has to do.
    todo: str = ""

    def cells(self) -> list[Cell]:
        """The columns."""
        return [str(self.date), self.what, self.account, self.record, self.text]


def last_shown(office: Office) -> datetime.date:
    """The last day that is shown if nobody names one: so many behind the last settled one as office.ini says."""
    return composing.last_day(office).date + datetime.timedelta(office.settings.due.lead)


def as_calendar(found: list[Due], until: datetime.date) -> str:
    """What is due as a calendar, which other programs take in."""
    tasks = [(task.date, f"{task.what}: {task.text}") for task in found]
    return calendar_of(f"Registry: what is due up to {until}", tasks)


def folded(found: list[Due]) -> list[Due]:
    """What people are shown: of many working days that are over the first ones, and how many there are behind them."""
    more = [task for task in found if task.what == MISSED][MOST_TOLD:]
    if len(more) < 2:
        return found
    last = Due(more[0].date, MISSED, None, None, f"{len(more)} from here to {more[-1].date} are over, and not settled")
    return [last if task is more[0] else task for task in found if task not in more[1:]]


def due_until(office: Office, until: datetime.date) -> list[Due]:
    """All that is due from the last settled day up to a date, by rising date. Raises WordsFault if no day is settled,
    and FileFault if a text of it can't be read."""
    return with_calendar(office, until, of_days(office, *composing.last_pair(office)))


def with_calendar(office: Office, until: datetime.date, day_dues: list[Due]) -> list[Due]:
    """The same, of what `of_days` tells and of the calendar."""
    every = (due for found in (day_dues, of_calendar(office)) for due in found if due.date <= until)
    return sorted(every, key=lambda due: (due.date, due.what, due.account or 0))


def of_days(office: Office, day: DayText, report: Report, ask: Stand = standings) -> list[Due]:
    """What is due whatever is handed in: it is told by the last day, its report, what waits and the deadlines."""
    names = office.names()
    lists = deadlines(office.settings.due, day, report, names, ask), of_rows(day, report, names), waiting(office, names)
    return [due for found in lists for due in found]


def deadlines(
    dates: DueDates, day: DayText, report: Report, names: Labels, ask: Stand = standings
) -> Iterator[Due]:
    """By when operators have to do something about each year that is over, of all periods. `ask` says how the accounts
    of the report stand."""
    for years in years_over(day.head):
        yield from deadlines_of_period(years, dates, day.head, names, lambda year: ask(day, report, year))


def deadlines_of_period(
    years: range, dates: DueDates, head: rules.Day, names: Labels, ask: Callable[[int], Iterable[Standing]]
) -> Iterator[Due]:
    """The same, of one period. Of its deadlines that are over the last one tells all: what is missing for a year, the
    years before it are missing, too. (What lacks for one period no other one makes good.)"""
    over: int | None = None
    for year in years:
        named = dates.surrender_of(year), dates.emissions_of(year)
        surrender, emissions = (date if date and date >= head.date else None for date in named)
        over = over if surrender or emissions or named == (None, None) else year
        if not surrender and not emissions:
            continue
        for standing in ask(year):
            yield from of_standing(standing, surrender, emissions, names)
    if over is not None:
        for standing in ask(over):
            late = of_standing(standing, dates.surrender_of(over), dates.emissions_of(over), names)
            yield from (task._replace(what=OVERDUE) for task in late)


def of_standing(
    standing: Standing, surrender: datetime.date | None, emissions: datetime.date | None, names: Labels
) -> Iterator[Due]:
    """What an operator has to do for a year, by these deadlines. Emissions that lack behind their own
    deadline are due by the one for surrenders: before them nobody knows what is missing."""
    account, year = standing.account, standing.year
    if standing.verdict in SETTLED or account.status == "closed":
        return
    holder = names.holder(str(account.holder))
    if standing.verdict == NO_EMISSIONS and (date := emissions or surrender):
        lacking = ", ".join(map(str, standing.years_without_emissions))
        text = f"emissions of {lacking} are not entered: holder {holder}"
        yield Due(date, DEADLINE, account.number, None, text, f"Report the emissions of {lacking}")
    if standing.missing and surrender:
        missing = grouped(standing.missing)
        todo = SURRENDER_FOR.format(missing, year)
        yield Due(surrender, DEADLINE, account.number, None, f"{missing} are missing for {year}: holder {holder}", todo)


def of_rows(day: DayText, report: Report, names: Labels) -> Iterator[Due]:
    """When the rows of accounts change what may be done: the end of a reversal window, an entry that takes effect."""
    head = head_after(day, report)
    window = head.lags["reversal"]
    for block in blocks_ahead(head, report):
        account = block.account()
        for other, takes_effect in account.trusted.items():
            if takes_effect > head.date:
                text = f"{other} on the list of holder {names.holder(str(account.holder))}"
                yield Due(takes_effect, LIST, account.number, None, text)
        for record, row in account.rows.items():
            end = None if row.is_reversed else head.due(row.date, window)
            if end is not None and end >= head.date:
                yield Due(end, REVERSAL, account.number, record, f"{row.what} of {grouped(row.amount)} {row.kind}")


def blocks_ahead(head: rules.Day, report: Report) -> Iterator[Block]:
    """The accounts of which an entry takes effect later, or a reversal window is not over: most are never read."""

    @functools.cache
    def is_ahead(word: str) -> bool:
        date = datetime.date.fromisoformat(word)
        end = head.due(date, head.lags["reversal"])
        return date > head.date or (end is not None and end >= head.date)

    rows, blocks, last = report.source.rows, [*report.book.values()], None
    for place in range(report.first_account, report.first_totals) if blocks else ():
        # (of the rows of accounts, only those of trusted lists and of what is retired begin with these letters)
        field = DATE_OF.get(rows[place][0])
        if field is None or not is_ahead(rows[place].split(",")[field]):
            continue
        block = blocks[bisect.bisect_right(blocks, place, key=AT) - 1]
        # (a report may have some accounts alone)
        if block is not last and block.index <= place < block.behind:
            last = block
            yield block


def waiting(office: Office, names: Labels) -> Iterator[Due]:
    """The instructions that wait. One without a due day in the calendar is not due on a day that is known."""
    for waits in waits_of(office):
        if waits.due:
            text = instruction_in_words(waits.instruction, names.account)
            yield Due(waits.due, WAITING, waits.instruction.first, waits.record, text)


def of_calendar(office: Office) -> Iterator[Due]:
    """The working days that lack a settlement, and where the calendar ends."""
    for date in missed_days(office):
        yield Due(date, MISSED, None, None, "it is over, and was not settled")
    last = composing.working_days(office, composing.last_day(office), approvals.handed_in_of(office))[-1:]
    for date in last:
        yield Due(date, CALENDAR, None, None, f"no working day behind it: hand in more by {voice.command('hand-in')}")


# What comes next, as far as no account has to be read for it: so it is told at once, however many accounts there are.


def missed_days(office: Office) -> list[datetime.date]:
    """The working days behind the last day that are over; none, if its text cannot be read, which is told as a
    fault."""
    last, today = office.last(), datetime.date.today()
    with contextlib.suppress(FileFault):
        return [date for date in composing.filed_calendar(office, last) if last.date < date < today] if last else []
    return []


def doubts_of_last(office: Office) -> list[str]:
    """What is to be known of the date of the last day: that it is no working day, and which working days before it have
    no text. None, if its text cannot be read, which is told as a fault."""
    dates = [event.date for event in office.store.events.days[-2:]]
    with contextlib.suppress(FileFault):
        if dates:
            calendar = composing.filed_calendar(office, office.store.events.days[-1])
            return [*about_date(dates[0] if len(dates) > 1 else None, dates[-1], calendar)]
    return []


def next_dates(office: Office, most: int) -> list[tuple[datetime.date, str]]:
    """The next days on which something is due, at most so many, each with what it is."""
    last = office.last()
    if last is None:
        return []
    found = [*waiting_dates(office), *deadline_dates(office, last.date)]
    with contextlib.suppress(FileFault):
        calendar = composing.filed_calendar(office, last)
        found += [(calendar[-1], "the calendar ends")] if calendar else []
    return sorted(pair for pair in found if pair[0] >= last.date)[:most]


def waiting_dates(office: Office) -> Iterator[tuple[datetime.date, str]]:
    """On which days instructions that wait are due."""
    count = Counter(waits.due for waits in waits_of(office) if waits.due)
    for date, often in count.items():
        yield date, f"{counted(often, 'instruction that waits is', 'instructions that wait are')} due"


def deadline_dates(office: Office, date: datetime.date) -> Iterator[tuple[datetime.date, str]]:
    """The deadlines of office.ini for the years around a day."""
    due = office.settings.due
    for year in (date.year - back for back in YEARS_BACK):
        for deadline, what in ((due.surrender_of(year), "surrender"), (due.emissions_of(year), "emissions")):
            if deadline:
                yield deadline, f"deadline of {what} for {year}"
