"""Which operators and aircraft operators are compliant for a year: a row each, and counts at the end. `./day compliance
--help` tells the columns and the verdicts."""
import bisect
import operator
from collections.abc import Callable, Iterable, Iterator, Sequence
from dataclasses import dataclass
from typing import NamedTuple

from registry_tools import tables, voice
from registry_tools.engine import confirm_figures
from registry_tools.errors import WordsFault
from registry_tools.texts.namebook import Labels
from registry_tools.progress import progress
from registry_tools.second import rules
from registry_tools.showing import Cell
from registry_tools.texts.day_text import DayText
from registry_tools.texts.in_words import grouped, table_lines
from registry_tools.texts.outdated import Entries, was_once_right
from registry_tools.texts.report import Report
from registry_tools.texts.runs import unlike

COLUMNS = tables.COLUMNS["compliance"]
# Where the accounts of a text begin.
AT = operator.attrgetter("index")
COMPLIANT, MISSING, NO_EMISSIONS = "compliant", "missing", "emissions missing"
SHORT, NOT_ASSESSED = "short but not assessed", "not assessed"
SINCE, OUTDATED, EXCLUDED = "surrendered since", "outdated", "excluded"
# In the order in which they are counted.
VERDICTS = (COMPLIANT, MISSING, NO_EMISSIONS, SHORT, NOT_ASSESSED, SINCE, OUTDATED, EXCLUDED)
# Nobody has to do anything about these.
SETTLED = {COMPLIANT, EXCLUDED}


@dataclass
class Standing:
    """How an account stands for a year. `figure` is that of now; without all emissions there is none."""

    account: rules.Account
    year: int
    surrendered: int
    emissions: int
    correction: int
    determined: int | None
    figure: int | None
    years_without_emissions: list[int]
    verdict: str

    @property
    def figures(self) -> tuple[int | None, ...]:
        """What is shown of it in numbers, from what was surrendered to the figure of now."""
        return self.surrendered, self.emissions, self.correction, self.determined, self.figure

    @property
    def missing(self) -> int | None:
        """How many allowances are missing now; None if that is not known, or nobody asks for it."""
        return None if self.figure is None or self.verdict == EXCLUDED else max(0, -self.figure)

    @property
    def verdict_in_words(self) -> str:
        """The verdict, with what is missing."""
        if self.verdict == MISSING:
            return f"missing {grouped(self.missing or 0)}"
        if self.verdict == NO_EMISSIONS:
            return f"{NO_EMISSIONS}: {' '.join(map(str, self.years_without_emissions))}"
        return self.verdict


# What tells how operators stand for a year.
Stand = Callable[[DayText, Report, int], Iterable[Standing]]


def last_year_over(head: rules.Day) -> int:
    """The last year that is over on the day, of any period."""
    over = years_over(head)
    if not over:
        why = f"no year of a period is over on {head.date}"
        raise WordsFault(why, f"name a year by {voice.option('year')}")
    return over[-1][-1]


def years_over(head: rules.Day) -> list[range]:
    """The years of each period that are over on the day, without periods that have none. Which period is the current
    one says for what is surrendered from now on, and takes no debt of another one away."""
    years = (range(first, min(last, head.date.year - 1) + 1) for first, last in head.periods)
    return [part for part in years if part]


def period_of(head: rules.Day, year: int) -> int:
    """The period of a year."""
    period = head.period_of(year)
    if period is None:
        periods = ", ".join(f"{first} to {last}" for first, last in head.periods)
        raise WordsFault(f"{voice.option('year', year)} is in no period of the day: there is {periods}")
    return period


def verdict_of(account: rules.Account, determined: int | None, figure: int | None, is_outdated: bool) -> str:
    """Whether an account is compliant, by its figures and what is determined."""
    if account.status == "excluded":
        return EXCLUDED
    if figure is None:
        return NO_EMISSIONS
    if determined is None:
        return SHORT if figure < 0 else NOT_ASSESSED
    if is_outdated:
        return OUTDATED
    if figure < 0:
        return MISSING
    return COMPLIANT if determined >= 0 else SINCE


def standing_of(head: rules.Day, account: rules.Account, year: int, entries: Entries | None = None) -> Standing:
    """How an account stands for a year, by the periods of the day. `entries` are those of the day: they may tell
    whether a figure is outdated."""
    period = period_of(head, year)
    first = head.periods[period - 1][0]
    years = range(first, year + 1)
    figure, determined = head.figure(account, year), account.figures.get(year)
    emitted = sum([account.emissions.get(each, 0) for each in years])
    have_changed = entries.have_changed(account.number, first, year) if entries else None
    if have_changed is None:
        have_changed = determined is not None and not was_once_right(account, period, determined, emitted)
    missing_years = [each for each in years if each not in account.emissions]
    verdict = verdict_of(account, determined, figure, have_changed and determined != figure)
    surrendered, correction = account.surrendered_for(period), account.corrections.get(period, 0)
    return Standing(account, year, surrendered, emitted, correction, determined, figure, missing_years, verdict)


class Stood(NamedTuple):
    """How operators stood for a year behind a day."""

    day: DayText
    report: Report
    standings: list[Standing]

    def same_behind(self, day: DayText, report: Report) -> dict[int, Standing]:
        """Who stands so behind a later day, too: whose account has the same rows, if neither log tells more of it."""
        if self.day.head.periods != day.head.periods:
            return {}
        told = Entries(self.day, self.report).of.keys() | Entries(day, report).of.keys()
        apart = {*unlike(self.report.book, report.book), *told}
        return {each.account.number: each for each in self.standings if each.account.number not in apart}


def standings(day: DayText, report: Report, year: int, before: Stood | None = None) -> Iterator[Standing]:
    """How each operator and aircraft operator stands, rising by account; those of an earlier day need not be worked out
    again. Raises FileFault if the library was built, and determines other figures than the report has."""
    confirm_figures(day, report)
    yield from standings_alone(day, report, year, before)


def standings_alone(day: DayText, report: Report, year: int, before: Stood | None = None) -> Iterator[Standing]:
    """The same, without comparing the figures of all accounts: a report may have some accounts alone."""
    period_of(day.head, year)
    entries, same = Entries(day, report), before.same_behind(day, report) if before else {}
    for block in progress.over(report.book.values(), "looking at the accounts", len(report.book)):
        if block.number in same:
            yield same[block.number]
        elif block.kind in rules.OPERATORS:
            yield standing_of(day.head, block.account(), year, entries)


def compliant_share(day: DayText, report: Report, year: int) -> tuple[int, int]:
    """How many operators and aircraft operators are compliant for a year, of how many. Who has no figure of the year is
    not, whatever else it has: so most accounts are not read. Nobody compares the figures."""
    period_of(day.head, year)
    entries, begins = Entries(day, report), f"figure,{year},"
    rows, blocks = report.source.rows, [*report.book.values()]
    count = sum(rows[block.index].split(",", 3)[2] in rules.OPERATORS for block in blocks)
    # (of the rows of accounts, only figures begin with this letter)
    figures = (place for place in range(report.first_account, report.first_totals) if rows[place][0] == "f")
    places = [place for place in figures if rows[place].startswith(begins)]
    determined = [blocks[bisect.bisect_right(blocks, place, key=AT) - 1] for place in places]
    accounts = (block.account() for block in determined if block.kind in rules.OPERATORS)
    verdicts = (standing_of(day.head, account, year, entries).verdict for account in accounts)
    return sum(verdict == COMPLIANT for verdict in verdicts), count


def cells(standing: Standing) -> list[Cell]:
    """The columns of an account."""
    account = standing.account
    verdict = standing.verdict if standing.verdict == MISSING else standing.verdict_in_words
    of_account: list[Cell] = [account.number, account.kind, account.holder, account.status]
    return [*of_account, standing.year, *standing.figures, verdict, standing.missing]


def counts(rows: Sequence[Standing]) -> list[str]:
    """The last lines: how many accounts have each verdict, and what is missing in all."""
    of = {verdict: sum(standing.verdict == verdict for standing in rows) for verdict in VERDICTS}
    missing = sum(standing.missing or 0 for standing in rows)
    counted = ", ".join(f"{count} {verdict}" for verdict, count in of.items() if count)
    lines = [f"accounts {len(rows)}: {counted or 'none'}"]
    lines.append(f"{grouped(missing)} allowances are missing now, as far as there are figures")
    return [*lines, *closed_words(rows)]


def closed_words(rows: Iterable[Standing]) -> list[str]:
    """A line on the closed accounts about which something would have to be done, if there are some."""
    count = sum(standing.account.status == "closed" and standing.verdict not in SETTLED for standing in rows)
    several = f"{grouped(count)} accounts that are not compliant are"
    which = several if count != 1 else "1 account that is not compliant is"
    return [f"{which} closed: no act is done on a closed account, so that stays"] if count else []


def standing_cells(standing: Standing, names: Labels) -> list[str]:
    """The cells of an account in the table, which says the year and what is missing once."""
    account, amounts = standing.account, ["" if figure is None else grouped(figure) for figure in standing.figures]
    name, holder = names.account(account.number), names.holder(account.holder)
    return [name, account.kind, holder, account.status, *amounts, standing.verdict_in_words]


def as_table(day: DayText, rows: Sequence[Standing], year: int, names: Labels) -> str:
    """The table of compliance for a year, with its counts."""
    period = period_of(day.head, year)
    first, last = day.head.periods[period - 1]
    head = [column for column in COLUMNS.names if column not in ("year", "missing")]
    right = {*head} - {"kind", "status", "verdict"}
    title = f"Compliance for {year}, in the period {first} to {last}, after {day.head.date}"
    lines = table_lines(head, [standing_cells(standing, names) for standing in rows], right)
    return "\n".join([title, "", *lines, "", *counts(rows), ""])


def is_open(standing: Standing) -> bool:
    """Whether somebody has to do something about an account. (On a closed account no act is done.)"""
    return standing.verdict not in SETTLED and standing.account.status != "closed"
