"""How operators stand, on the page of a month; and how its tables are cut, and lead on from a desk."""
import datetime
from collections import Counter
from typing import Any, Callable, Iterator

from registry_tools.calendars.deadlines import DueDates
from registry_tools.errors import WordsFault
from registry_tools.texts.namebook import Labels
from registry_tools.pages.compliance import bar
from registry_tools.pages.html import Markup, Table, facts, heading, paragraph
from registry_tools.pages.settled import count_of
from registry_tools.pairs.compliance import (
    COMPLIANT, MISSING, NO_EMISSIONS, VERDICTS, Stand, Standing, last_year_over, standings,
)  # fmt: skip
from registry_tools.store.past import PastDay
from registry_tools.texts.in_words import grouped

MISSED = Table(["Account", "Holder", "Surrendered of emissions", "Missing"], ("Missing",))
# What makes a cell with a day or an account, which a desk leads on from: the address of its page, and its words.
Way = Callable[[str, object], object]


def no_way(_target: str, words: object) -> object:
    """A page that is a file leads nowhere."""
    return words


def first_rows_of(
    table: Table, caption: str, rows: list[Any], most: int | None, show: Callable[[Any], Any] = lambda row: row
) -> Iterator[Markup]:
    """A table of at most so many rows, and how many more there are. `show` makes the cells of those that are shown."""
    yield table.of(caption, map(show, rows[:most]))
    if most is not None and len(rows) > most:
        yield paragraph(f"And {grouped(len(rows) - most)} more.")


def compliance_parts(
    last: PastDay, named: int | None, deadline: datetime.date | None, due: DueDates, names: Labels, most: int | None,
    way: Way, ask: Stand = standings,
) -> Iterator[Markup]:  # fmt: skip
    """How operators stand after the last day, for the named year or the last one that is over. Where emissions are
    missing nobody knows, and that is said. Without a named deadline it is that of the office. At most so many
    operators are shown."""
    yield heading("Compliance")
    try:
        year = last_year_over(last.day.head) if named is None else named
    except WordsFault:
        yield paragraph("No year of a period is over.")
        return
    rows = [*ask(last.day, last.report, year)]
    yield compliance_facts(rows, year, until_in_words(last.date, deadline or due.surrender_of(year)))
    unsettled = [row for row in rows if row.missing or row.verdict == NO_EMISSIONS]
    lacking = sorted(unsettled, key=lambda row: (-(row.missing or 0), row.account.number))

    def cells(row: Standing) -> tuple[object, ...]:
        of = row.account
        account, holder = way(f"/accounts/{of.number}", names.account(of.number)), names.holder(of.holder)
        return account, holder, bar(row), missing_of(row)

    if lacking:
        yield from first_rows_of(MISSED, f"Who is missing how much for {year}", lacking, most, cells)


def compliance_facts(rows: list[Standing], year: int, until: str) -> Markup:
    """Until when what is missing has to be surrendered, the share of compliant operators, and the sums."""
    count = Counter(row.verdict for row in rows)
    missing, debtors = sum(row.missing or 0 for row in rows), sum(bool(row.missing) for row in rows)
    told = (COMPLIANT, MISSING, NO_EMISSIONS)
    # (of an excluded account without them nobody knows either)
    complete = [row for row in rows if not row.years_without_emissions]
    return facts([
        ("Year", year),
        ("Until when", until),
        ("Operators", grouped(len(rows))),
        ("Compliant", f"{grouped(count[COMPLIANT])} of {grouped(len(rows))}"),
        ("Missing allowances", f"{grouped(missing)}, of {count_of(debtors, 'operator', 'operators')}"),
        ("Without emissions of some year", grouped(count[NO_EMISSIONS])),
        *((word.capitalize(), grouped(count[word])) for word in VERDICTS if count[word] and word not in told),
        ("Surrendered", f"{grouped(sum(row.surrendered for row in complete))}, by those whose emissions are known"),
        ("Emissions", f"{grouped(sum(row.emissions for row in complete))}, of the same"),
    ])  # fmt: skip


def missing_of(standing: Standing) -> str:
    """What an operator lacks."""
    if standing.verdict == NO_EMISSIONS:
        return f"not known: no emissions of {', '.join(map(str, standing.years_without_emissions))}"
    return grouped(standing.missing or 0)


def until_in_words(last: datetime.date, deadline: datetime.date | None) -> str:
    """The deadline, and how far it is from the last day: whoever reads it later, or behind a weekend, has another
    today."""
    if deadline is None:
        return "no deadline is named"
    days = (deadline - last).days
    if days < 0:
        return f"{deadline}, which is over"
    return f"{deadline}, {count_of(days, 'day', 'days')} after {last}" if days else f"{deadline}, the last day itself"
